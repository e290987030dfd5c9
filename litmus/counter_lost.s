# counter_lost, a counter without cas: two cores count to two each by a load, an addition and a store.
# cores: 2
# outcome: x@0x200
# allowed: 2    a core stores its second 1 + 1 with a 1 that the other's first step left, and all else is lost
# allowed: 3    one step is lost
# allowed: 4    none is lost
# weaker: 1     a core doesn't load what it stored itself: its second step begins from 0 again
        la    $s0, x
        li    $s2, 2                    # rounds

        jal   meet
        nop
count:  lw    $t1, 0($s0)
        jal   pause
        nop
        addiu $t1, $t1, 1
        sw    $t1, 0($s0)               # what the other has stored meanwhile is lost
        jal   pause
        nop
        addiu $s2, $s2, -1
        bne   $s2, $zero, count
        nop
        halt

        .data 0x200
x:      .word 0, 0                      # in a line of its own
