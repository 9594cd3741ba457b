# Writes a script of 262,145 bytes, one more than a script may have: a comment, and the line `nodes 1`.
# Write 262136 for the 262137, and the script is accepted.
head -c 262137 /dev/zero | tr '\0' '#'
printf '\nnodes 1'
