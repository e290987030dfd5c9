# S: core 0 stores 2 to x, and then to y; core 1 loads y and then stores 1 to x.
# cores: 2
# outcome: 1:$t1 x@0x200
# allowed: 0 1    core 1 loads first and stores last
# allowed: 0 2    core 1 loads first, and its store is before core 0's
# allowed: 1 1    core 1 sees core 0's second store, so its own is the last
# weaker: 1 2     core 0's stores are made out of order, or core 1's store before its load
        la    $s0, x
        la    $s1, y
        li    $s4, 1
        li    $s5, 2
        bne   $a0, $zero, P1
        nop

P0:     jal   meet
        nop
        sw    $s5, 0($s0)               # x = 2
        jal   pause
        nop
        sw    $s4, 0($s1)               # y = 1
        halt
P1:     jal   meet
        nop
        lw    $t1, 0($s1)               # $t1 = y
        jal   pause
        nop
        sw    $s4, 0($s0)               # x = 1
        halt

        .data 0x200
x:      .word 0, 0                      # each in a line of its own
y:      .word 0, 0
