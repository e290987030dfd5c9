# CoWR, coherence of a store and a load: core 0 stores 1 to x and loads it, and core 1 stores 2.
# cores: 2
# outcome: 0:$t1 x@0x200
# allowed: 1 1    core 1 comes first
# allowed: 1 2    core 1 comes last
# allowed: 2 2    core 1 comes between
# weaker: 2 1     core 0 sees 2, which is older than its own store
# weaker: 0 1     core 0's load passes its own store to the same word
# weaker: 0 2     the same
        la    $s0, x
        li    $s4, 1
        li    $s5, 2
        bne   $a0, $zero, P1
        nop

P0:     jal   meet
        nop
        sw    $s4, 0($s0)               # x = 1
        jal   pause
        nop
        lw    $t1, 0($s0)               # $t1 = x
        halt
P1:     jal   meet
        nop
        sw    $s5, 0($s0)               # x = 2
        halt

        .data 0x200
x:      .word 0, 0                      # in a line of its own
