# A branch is decided in ID: behind its delay slot the row of its target follows without a gap, whether it is taken or not. Each
# pass of the loop takes three cycles. The last branch waits two for the word that it compares, so "N wait-operand 2".
        li    $t0, 3
loop:   addiu $t0, $t0, -1
        bgtz  $t0, loop
        addiu $t1, $t1, 10              # delay slot
        lw    $t2, 0x100($zero)
        bne   $t2, $zero, other
        nop                             # delay slot: it stays in IF until the branch leaves ID
        halt

other:  move  $t3, $t2
        halt

        .data 0x100
        .word 1
