" Vim, started on a source from a home that has the page's lines alone, tells what it has there: each line
" of the file TOLD is 'right: ..' or 'WRONG: ..'. The source has one slip, a plain number, on line 4.
let s:rows = []
function! s:Want(holds, words) abort
  call add(s:rows, (a:holds ? 'right: ' : 'WRONG: ') . a:words)
endfunction

call s:Want(&filetype ==# 'mos65', 'the type of the file')
call s:Want(&commentstring ==# '; %s' && &comments ==# ':;', 'comments')
for [s:word, s:group] in [['LDX', 'mos65Mnemonic'], ['next:', 'mos65Label'], ['; with', 'mos65Comment']]
  call cursor(1, 1)
  call search('\V' . s:word)
  call s:Want(synIDattr(synID(line('.'), col('.'), 1), 'name') ==# s:group, 'the colour of ' . s:word)
endfor
silent make!
let s:found = filter(getqflist(), 'v:val.valid')
call s:Want(len(s:found) == 1 && s:found[0].lnum == 4 && s:found[0].type ==? 'w', ':make lists the slip as a warning')
call s:Want(!empty(s:found) && bufname(s:found[0].bufnr) ==# expand('%'), 'in this file')
call s:Want(1, 'an end')
call writefile(s:rows, $TOLD)
qa!
