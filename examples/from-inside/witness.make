# What an orphan could have seen in an execution in which it is none: the orphan of orphans/unheard.cam.
# Look at what is not there: the abort of 1.1.1/4.1.1. Write another action's name into witness.words.
cat "$(dirname "$0")/../orphans/unheard.cam"
