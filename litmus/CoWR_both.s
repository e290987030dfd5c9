# CoWR_both, coherence of a store and a load on both cores: each stores to x and loads it.
# cores: 2
# outcome: 0:$t1 1:$t1 x@0x200
# allowed: 1 1 1    core 0 comes between
# allowed: 1 2 1    core 0 comes last
# allowed: 1 2 2    core 1 comes last
# allowed: 2 2 2    core 1 comes between
# weaker: 2 1 1     each core sees its store replaced by the other's
# weaker: 2 1 2     the same
        la    $s0, x
        li    $s4, 1
        li    $s5, 2
        bne   $a0, $zero, P1
        nop

P0:     jal   meet
        nop
        sw    $s4, 0($s0)               # x = 1
        jal   pause
        nop
        lw    $t1, 0($s0)               # $t1 = x
        halt
P1:     jal   meet
        nop
        sw    $s5, 0($s0)               # x = 2
        jal   pause
        nop
        lw    $t1, 0($s0)               # $t1 = x
        halt

        .data 0x200
x:      .word 0, 0                      # in a line of its own
