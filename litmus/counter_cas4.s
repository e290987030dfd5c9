# counter_cas4, a counter by cas on four cores, two steps each, that goes on with what a failed cas found.
# cores: 4
# outcome: x@0x200
# allowed: 8    no step is lost
# weaker: 7     the load and the store of a cas are apart, and another one comes between them
        la    $s0, x
        li    $s2, 2                    # rounds

        jal   meet
        nop
        lw    $t1, 0($s0)
count:  jal   pause
        nop
        addiu $t2, $t1, 1
        move  $t3, $t1
        cas   $t3, $s0, $t2             # stores $t2 where x is $t1 still
        bne   $t3, $t1, count
        move  $t1, $t3                  # delay slot: what it found
        addiu $s2, $s2, -1
        bne   $s2, $zero, count
        move  $t1, $t2                  # delay slot: what it stored
        halt

        .data 0x200
x:      .word 0, 0                      # in a line of its own
