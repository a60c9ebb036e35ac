; 8 KiB at $E000, filled with $EA: a loop that counts
        .cpu "6502"
        * = $E000
st      sei
        ldx #$ff
        txs
lp      inc $d020
        jmp lp
        .fill $fffa-*, $ea
        .word st, st, st
