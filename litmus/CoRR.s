# CoRR, coherence of two loads: core 1 loads x twice while core 0 stores to it.
# cores: 2
# outcome: 1:$t1 1:$t2
# allowed: 0 0
# allowed: 0 1
# allowed: 1 1
# weaker: 1 0     the second load finds an older word than the first
        la    $s0, x
        li    $s4, 1
        bne   $a0, $zero, P1
        nop

P0:     jal   meet
        nop
        sw    $s4, 0($s0)               # x = 1
        halt
P1:     jal   meet
        nop
        lw    $t1, 0($s0)               # $t1 = x
        jal   pause
        nop
        lw    $t2, 0($s0)               # $t2 = x
        halt

        .data 0x200
x:      .word 0, 0                      # in a line of its own
