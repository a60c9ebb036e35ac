" What Vim and Neovim do in a source of mos65: comments, words, and `:make`.

if exists('b:did_ftplugin')
  finish
endif
let b:did_ftplugin = 1

setlocal comments=:;
setlocal commentstring=;\ %s
setlocal iskeyword=@,48-57,_
setlocal suffixesadd=.a65
setlocal formatoptions-=t formatoptions+=croql
let &l:define = '^\s*\ze\a\w*\s*[:=]'
compiler mos65

let b:undo_ftplugin = 'setlocal comments< commentstring< iskeyword< suffixesadd< formatoptions< define<'
      \ . ' makeprg< errorformat< | unlet! b:current_compiler'
