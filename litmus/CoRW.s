# CoRW, coherence of a load and a store: core 1 loads x, which core 0 stores 1 to, and then stores 2.
# cores: 2
# outcome: 1:$t1 x@0x200
# allowed: 0 1    core 0 comes last
# allowed: 0 2    core 0 comes between
# allowed: 1 2    core 1 sees the 1, so its 2 is behind it
# weaker: 1 1     core 1's store is made before the one that it saw
        la    $s0, x
        li    $s4, 1
        li    $s5, 2
        bne   $a0, $zero, P1
        nop

P0:     jal   meet
        nop
        sw    $s4, 0($s0)               # x = 1
        halt
P1:     jal   meet
        nop
        lw    $t1, 0($s0)               # $t1 = x
        jal   pause
        nop
        sw    $s5, 0($s0)               # x = 2
        halt

        .data 0x200
x:      .word 0, 0                      # in a line of its own
