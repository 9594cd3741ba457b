# Why event 25 of orphans/caught.cam stopped an action: where the abort was decided, and the letters that led from there.
# Write `why 24` into why.words: that event stopped nobody.
cat "$(dirname "$0")/../orphans/caught.cam"
