" Scripts of camelot: comments, the words that begin lines, kinds, operations, values.
if exists("b:current_syntax")
    finish
endif

syntax match camName /\(\s\)\@1<=\a[A-Za-z0-9]\{,15}\(\s\|$\)\@=/
syntax match camNumber /\(\s\)\@1<=-\?\d\+\(\s\|$\)\@=/
syntax match camResult /\(\s\)\@1<=\$\d\+\([+-]\d\+\)\?\(\s\|$\)\@=/
syntax match camKind /\(\s\)\@1<=\(register\|queue\|counter\)\(\s\|$\)\@=/
syntax match camOperation /\(\s\)\@1<=\(read\|write\|swap\|size\|put\|take\|add\)\(\s\|$\)\@=/
syntax match camDeclaration /^\s*\(nodes\|object\|body\|child\|end\)\(\s\|$\)\@=/
syntax match camAction /^\s*\(begin\|start\|ask\|call\|commit\|abort\|giveup\|go\|expire\)\(\s\|$\)\@=/
syntax match camRun /^\s*\(deliver\|cut\|lose\|restart\|drain\|play\|tell\|query\|stop\|tick\)\(\s\|$\)\@=/
syntax match camComment /^\s*#.*$/

highlight default link camComment Comment
highlight default link camDeclaration PreProc
highlight default link camAction Statement
highlight default link camRun Keyword
highlight default link camKind Type
highlight default link camOperation Function
highlight default link camResult Identifier
highlight default link camNumber Number
highlight default link camName Normal

let b:current_syntax = "cam"
