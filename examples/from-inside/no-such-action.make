# A name that no action has: the status is 8.
cat "$(dirname "$0")/../orphans/caught.cam"
