" Vim compiler file: `:make` runs `mos65 check` on the file. The program is g:mos65_program, or mos65 on
" the path. A file of type mos65 has this compiler at once; `:compiler mos65` sets it elsewhere.

if exists('current_compiler')
  finish
endif
let current_compiler = 'mos65'

let s:checks = shellescape(expand(get(g:, 'mos65_program', 'mos65'))) . ' check %:S'
execute 'CompilerSet makeprg=' . escape(s:checks, ' \|"')
CompilerSet errorformat=%f:%l:%c:\ %tarning:\ %m,%f:%l:%c:\ %m,%-G%.%#
