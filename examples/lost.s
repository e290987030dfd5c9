# With --cores=2 both cores load a counter, add 1 and store it, ten times. The lw and sw rows of the two stand in turn, so
# each second step is lost: the W row says 0000000a where 20 steps were made.
        la    $t0, counter
        li    $t1, 10
loop:   lw    $t2, 0($t0)
        addiu $t2, $t2, 1
        sw    $t2, 0($t0)
        addiu $t1, $t1, -1
        bne   $t1, $zero, loop
        nop
        halt

        .data 0x100
counter: .word 0
