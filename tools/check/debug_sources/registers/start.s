; A bare machine: the C stack below $8000, the heap, and main.
        .export __STARTUP__ : absolute = 1
        .import _main, __STACK_TOP__, copydata, initlib, zerobss
        .importzp sp

        .segment "STARTUP"
start:  cld
        ldx     #$FF
        txs
        lda     #<__STACK_TOP__
        ldx     #>__STACK_TOP__
        sta     sp
        stx     sp+1
        jsr     zerobss
        jsr     copydata
        jsr     initlib
        jsr     _main
stop:   jmp     stop

        .segment "VECTORS"
        .word   stop, start, stop
