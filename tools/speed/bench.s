; What tools/measure-speed runs: a kernel of nested loops over most addressing modes, and a sieve of
; odd numbers. It starts at $0200 and ends with a jump to $FFF9, where sim65 has its exit and a session
; a breakpoint. It leaves in A the low byte of the number of primes from 3 to 16384, which is 1899.
        .setcpu "6502"
        .org $0200
KERNELS = 300
SIEVES  = 135
DATA    = $4000
OTHER   = $4800
FLAGS   = $6000
here    = $10
there   = $12
turns   = $14
found   = $16
sum     = $18
rounds  = $1A
low     = $1C

start:  cld
        ldx #$FF
        txs
        lda #<KERNELS
        sta turns
        lda #>KERNELS
        sta turns+1
again:  jsr kernel
        lda turns
        bne lower
        dec turns+1
lower:  dec turns
        lda turns
        ora turns+1
        bne again
        ldx #SIEVES
        stx turns
next:   jsr sieve
        dec turns
        bne next
        lda found
        jmp $FFF9

; 32 times 256 turns of loads, sums, stores, shifts and pushes
kernel: lda #<OTHER
        sta here
        lda #>OTHER
        sta here+1
        lda #32
        sta rounds
outer:  ldx #0
        ldy #0
inner:  lda DATA,x
        clc
        adc sum
        sta DATA,x
        adc (here),y
        sta (here),y
        sbc DATA+$80,x
        pha
        sed
        lda sum+1
        adc #$19
        sta sum+1
        cld
        pla
        inc sum
        eor sum
        lsr a
        ror low
        cmp #$40
        bcc small
        asl OTHER+$100,x
small:  iny
        inx
        bne inner
        dec rounds
        bne outer
        rts

; 8191 flags for the odd numbers from 3 on, and each multiple struck out
sieve:  lda #<FLAGS
        sta here
        lda #>FLAGS
        sta here+1
        lda #1
        ldx #32
        ldy #0
set:    sta (here),y
        iny
        bne set
        inc here+1
        dex
        bne set
        stx found
        stx found+1
        stx here
        stx here+1
look:   clc
        lda here
        adc #<FLAGS
        sta there
        lda here+1
        adc #>FLAGS
        sta there+1
        lda (there),y
        beq done
        inc found
        bne twice
        inc found+1
twice:  lda here
        asl a
        sta sum
        lda here+1
        rol a
        sta sum+1
        clc
        lda sum
        adc #3
        sta sum
        bcc strike
        inc sum+1
strike: clc
        lda there
        adc sum
        sta there
        lda there+1
        adc sum+1
        sta there+1
        bcs done
        cmp #>(FLAGS+8192)
        bcs done
        tya
        sta (there),y
        beq strike
done:   inc here
        bne more
        inc here+1
more:   lda here+1
        cmp #$1F
        bcc look
        bne end
        lda here
        cmp #$FF
        bcc look
end:    rts
