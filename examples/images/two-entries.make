# Writes the image of a log with two entries: a count, an abort and a commit that depends on two nodes; and a family that was secured with one
# operation, after a Version. Cut the last byte off, and its place is told: the closed gate is missing.
printf 'CAMELOT\n'
printf '\001\000\000\000\000\000\000\000\065'
printf '\001\000\000\000\002'
printf '\002\001\001\000\000\000\001\000\000\000\003'
printf '\003\002\001\000\000\000\001\000\000\000\002\002\000\000\000\001\000\000\000\001\002\001\000\000\000\001\002\000\000\000\003'
printf '\004\003\000\000\000\004'
printf '\001\000\000\000\000\000\000\000\043'
printf '\006\002'
printf '\005\001\001\000\000\000\001\000\000\000\001\000\000\000\002\000\000\000\001\000\000\000\007\003\002\000\000\000\000\000\000\000\005'
printf '\000'
