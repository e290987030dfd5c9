# counter_cas, a counter by cas: two cores count to three each, and try a step again where the other came first.
# cores: 2
# outcome: x@0x200
# allowed: 6    no step is lost
# weaker: 5     the load and the store of a cas are apart, and another one comes between them
        la    $s0, x
        li    $s2, 3                    # rounds

        jal   meet
        nop
count:  lw    $t1, 0($s0)
        jal   pause
        nop
        addiu $t2, $t1, 1
        move  $t3, $t1
        cas   $t3, $s0, $t2             # stores $t2 where x is $t1 still
        bne   $t3, $t1, count
        nop
        addiu $s2, $s2, -1
        bne   $s2, $zero, count
        nop
        halt

        .data 0x200
x:      .word 0, 0                      # in a line of its own
