" Vim syntax file
" Language: sources of mos65 (.a65), a 6502 assembler
" Tested by tools/check/editors.

if exists('b:current_syntax')
  finish
endif

syntax case ignore

" Mnemonics of profile N, and those that profile C adds.
syntax keyword mos65Mnemonic ADC AND ASL BCC BCS BEQ BIT BMI BNE BPL
syntax keyword mos65Mnemonic BRK BVC BVS CLC CLD CLI CLV CMP CPX CPY
syntax keyword mos65Mnemonic DEC DEX DEY EOR INC INX INY JMP JSR LDA
syntax keyword mos65Mnemonic LDX LDY LSR NOP ORA PHA PHP PLA PLP ROL
syntax keyword mos65Mnemonic ROR RTI RTS SBC SEC SED SEI STA STX STY
syntax keyword mos65Mnemonic TAX TAY TSX TXA TXS TYA
syntax keyword mos65MnemonicC BRA PHX PHY PLX PLY STZ
syntax keyword mos65Register A X Y

syntax match mos65Directive "\.\(BYTE\|WORD\|DBYTE\|RES\|END\)\a\@!"
syntax match mos65Origin "\*\ze\s*="
syntax match mos65Label "^\s*\a\w*\ze\s*:"
syntax match mos65Definition "^\s*\a\w*\ze\s*="
syntax match mos65Number "\<\d\+\>"
syntax match mos65Number "\$\x\+"
syntax match mos65Number "%[01]\+"
syntax match mos65Character "'[ -~]'"
syntax region mos65String start=+"+ end=+"+ oneline
syntax match mos65Operator "[#!<>&|^*/+-]"
syntax match mos65Comment ";.*$" contains=mos65Todo
syntax keyword mos65Todo contained TODO FIXME

highlight default link mos65Mnemonic Statement
highlight default link mos65MnemonicC Statement
highlight default link mos65Register Identifier
highlight default link mos65Directive PreProc
highlight default link mos65Origin PreProc
highlight default link mos65Label Label
highlight default link mos65Definition Constant
highlight default link mos65Number Number
highlight default link mos65Character Character
highlight default link mos65String String
highlight default link mos65Operator Operator
highlight default link mos65Comment Comment
highlight default link mos65Todo Todo

let b:current_syntax = 'mos65'
