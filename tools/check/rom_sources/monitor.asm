; 4 KiB at $F000: a monitor with an ACIA, text behind calls, a table for RTS, one of pointers,
; and undocumented instructions
        .cpu "6502i"
ACIA_S  = $A000
ACIA_D  = $A001
VIA_T1L = $A804
VIA_IFR = $A80D
ptr     = $F0
tmp     = $F2
ticks   = $F4
        * = $F000
reset   cld
        ldx #$ff
        txs
        jmp cold
; entry table
getc    jmp igetc
putc    jmp iputc
puthex  jmp iphex
cold    lda #$03
        sta ACIA_S
        lda #$16
        sta ACIA_S
        jsr print
        .text "6502 MON V1.2", 13, 10, 0
loop    lda #'>'
        jsr iputc
        jsr igetc
        cmp #'0'
        bcc bad
        cmp #'0'+ncmd
        bcs bad
        sec
        sbc #'0'
        asl a
        tax
        lda rtab+1,x     ; RTS trick
        pha
        lda rtab,x
        pha
        rts
bad     jsr print
        .text "WHAT?", 13, 10, 0
        jmp loop
rtab    .word cmd0-1, cmd1-1, cmd2-1
ncmd = 3
cmd0    ldx #4
-       lda jtab,x
        sta ptr
        lda jtab+1,x
        sta ptr+1
        jmp (ptr)        ; indirect jump table
jtab    .word sub0, sub1, sub2
sub0    jsr print
        .text "SUB0", 0
        jmp loop
sub1    lax (ptr),y      ; undocumented
        sax tmp
        dcp tmp
        jmp loop
sub2    .byte $04, $10   ; NOP zp (undocumented)
        .byte $0c, $00, $20
        jmp loop
cmd1    lda ticks
        jsr iphex
        jmp loop
cmd2    jsr csum
        jmp loop
igetc   lda ACIA_S
        lsr a
        bcc igetc
        lda ACIA_D
        rts
iputc   pha
-       lda ACIA_S
        and #2
        beq -
        pla
        sta ACIA_D
        rts
iphex   pha
        lsr a
        lsr a
        lsr a
        lsr a
        jsr hexd
        pla
        and #15
hexd    ora #'0'
        cmp #'9'+1
        bcc +
        adc #6
+       jmp iputc
; print inline string
print   pla
        sta ptr
        pla
        sta ptr+1
        ldy #0
-       inc ptr
        bne +
        inc ptr+1
+       lda (ptr),y
        beq +
        jsr iputc
        jmp -
+       lda ptr+1
        pha
        lda ptr
        pha
        rts
csum    lda #0
        tay
        sta ptr
        lda #$f0
        sta ptr+1
        lda #0
        clc
-       adc (ptr),y
        iny
        bne -
        inc ptr+1
        bne -
        jsr iphex
        rts
irq     bit VIA_IFR
        bvc +
        inc ticks
        bit VIA_T1L
+       rti
nmi     rti
        .fill $fff9-*, $ff
        .byte $00        ; checksum byte
        .word nmi, reset, irq
