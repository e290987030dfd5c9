# cas_store, a store of core 1 beside a cas of core 0 from 0 to 1.
# cores: 2
# outcome: 0:$t1 x@0x200
# allowed: 0 2    the cas swaps, and the store comes behind it
# allowed: 2 2    the store is the first, and the cas stores nothing
# weaker: 0 1     the store comes between the load and the store of the cas, and is lost
        la    $s0, x
        li    $s4, 1
        li    $s5, 2
        bne   $a0, $zero, P1
        nop

P0:     jal   meet
        nop
        move  $t1, $zero
        cas   $t1, $s0, $s4             # x: from 0 to 1; $t1 = what it had
        halt
P1:     jal   meet
        nop
        sw    $s5, 0($s0)               # x = 2
        halt

        .data 0x200
x:      .word 0, 0                      # in a line of its own
