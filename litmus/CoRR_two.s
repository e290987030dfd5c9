# CoRR_two, coherence of two loads with two stores: core 0 stores 1 and then 2, core 1 loads twice.
# cores: 2
# outcome: 1:$t1 1:$t2
# allowed: 0 0
# allowed: 0 1
# allowed: 0 2
# allowed: 1 1
# allowed: 1 2
# allowed: 2 2
# weaker: 2 1     the second load finds an older word than the first
# weaker: 1 0     the same
# weaker: 2 0     the same
        la    $s0, x
        li    $s4, 1
        li    $s5, 2
        bne   $a0, $zero, P1
        nop

P0:     jal   meet
        nop
        sw    $s4, 0($s0)               # x = 1
        jal   pause
        nop
        sw    $s5, 0($s0)               # x = 2
        halt
P1:     jal   meet
        nop
        lw    $t1, 0($s0)               # $t1 = x
        jal   pause
        nop
        lw    $t2, 0($s0)               # $t2 = x
        halt

        .data 0x200
x:      .word 0, 0                      # in a line of its own
