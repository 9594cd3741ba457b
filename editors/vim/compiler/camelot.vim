" :compiler camelot, then :make, runs the script, and goes to the place at which it, or a line of it, is refused.
" Messages FILE:LINE:COLUMN: TEXT and FILE:LINE: TEXT are read.
if exists("current_compiler")
    finish
endif
let current_compiler = "camelot"

let &l:makeprg = "camelot run <%:S \\| awk -v file=%:S '$1 == \"refused\" { $1 = file \":\" $2 (NF == 4 ? \":\" $3 : \"\") \":\";"
    \ . " print $1, \"refused by\", $NF; next } 1'"
let &l:errorformat = "%f:%l:%c: %m,%f:%l: %m"
