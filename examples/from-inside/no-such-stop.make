# An event that stopped nobody: the status is 8.
cat "$(dirname "$0")/../orphans/caught.cam"
