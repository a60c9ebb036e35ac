; 2 KiB at $F800: a jump through a table of two words
        * = $F800
reset   ldx #2
        lda tab,x
        sta $10
        lda tab+1,x
        sta $11
        jmp ($0010)
tab     .word a0, a1
a0      lda #1
        sta $A000
h0      jmp h0
a1      lda #2
        sta $A000
h1      jmp h1
        .fill $fffa-*, $ff
        .word reset, reset, reset
