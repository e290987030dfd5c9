# CoWW, coherence of two stores: core 0 stores 1 and then 2 to x, and core 1 looks.
# cores: 2
# outcome: 1:$t1 x@0x200
# allowed: 0 2
# allowed: 1 2
# allowed: 2 2
# weaker: 0 1     two stores of a core to one word are made out of order
# weaker: 1 1     the same
# weaker: 2 1     the same
        la    $s0, x
        li    $s4, 1
        li    $s5, 2
        bne   $a0, $zero, P1
        nop

P0:     jal   meet
        nop
        sw    $s4, 0($s0)               # x = 1
        jal   pause
        nop
        sw    $s5, 0($s0)               # x = 2
        halt
P1:     jal   meet
        nop
        lw    $t1, 0($s0)               # $t1 = x
        halt

        .data 0x200
x:      .word 0, 0                      # in a line of its own
