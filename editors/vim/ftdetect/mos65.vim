" Vim itself takes .a65 for another assembler, so the type is set and not only proposed.
autocmd BufRead,BufNewFile *.a65 set filetype=mos65
