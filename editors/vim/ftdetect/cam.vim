" Scripts of camelot.
autocmd BufNewFile,BufRead *.cam setfiletype cam
