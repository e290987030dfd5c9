# With --cores=2 two cores hand a ball to and fro: the word at 100 is the number of the core that has it. While a core
# waits it loads from its own copy, with no transaction; the store of the other one takes that copy away (im 1), and the next
# load brings the line back from the cache that has it modified (di), which then owns it.
        la    $t0, ball
        li    $t1, 3                    # so often each core has the ball
        addiu $t4, $zero, 1
        subu  $t4, $t4, $a0             # the other core
wait:   lw    $t2, 0($t0)
        bne   $t2, $a0, wait
        nop
        addiu $t1, $t1, -1
        bne   $t1, $zero, wait
        sw    $t4, 0($t0)               # delay slot: it goes to the other core
        halt

        .data 0x100
ball:   .word 0
