# The events of the run of disks/taken.cam, one by one, with what each did and the letters that it sent.
# Look at event 9: the commit is in the log of node 1, and no letter has left, since its disk had stopped. Event 10 is the restart.
# Write another script's path below, and see its run from inside.
cat "$(dirname "$0")/../disks/taken.cam"
