# Writes the image of a log with checkpoints that was just made. Only the image of a log without them is upgraded: the fourth byte is wrong.
# Write `inspect` into not-upgraded.words: there is no entry to show.
printf 'CAMCKPT\n'
printf '\001\000\000\000\000\000\000\000\001\000\000\000\000\000\000\000\052'
head -c 18 /dev/zero
