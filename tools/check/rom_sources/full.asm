; 64 KiB: a program from $0200 on, and a table of two words
        .cpu "6502"
        * = $0000
        .fill $0200-*, $00
start   ldx #$02
        lda tab,x
        sta $10
        lda tab+1,x
        sta $11
        jmp ($0010)
tab     .word one, two
one     lda #$01
        sta $A000
h0      jmp h0
two     lda #$02
        sta $A000
h1      jmp h1
        .fill $fffa-*, $ff
        .word start, start, start
