# CoRW_own, coherence of a load and a later store on both cores: each loads x and then stores to it.
# cores: 2
# outcome: 0:$t1 1:$t1 x@0x200
# allowed: 0 0 1
# allowed: 0 0 2
# allowed: 0 1 2    core 1 sees core 0's store
# allowed: 2 0 1    core 0 sees core 1's store
# weaker: 1 0 2     a load finds the later store of its own core
# weaker: 2 1 1     load buffering on one word
# weaker: 2 1 2     the same
        la    $s0, x
        li    $s4, 1
        li    $s5, 2
        bne   $a0, $zero, P1
        nop

P0:     jal   meet
        nop
        lw    $t1, 0($s0)               # $t1 = x
        jal   pause
        nop
        sw    $s4, 0($s0)               # x = 1
        halt
P1:     jal   meet
        nop
        lw    $t1, 0($s0)               # $t1 = x
        jal   pause
        nop
        sw    $s5, 0($s0)               # x = 2
        halt

        .data 0x200
x:      .word 0, 0                      # in a line of its own
