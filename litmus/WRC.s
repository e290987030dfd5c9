# WRC, write-to-read causality: core 1 sees core 0's store to x and then stores to y; core 2 loads y and then x.
# cores: 3
# outcome: 1:$t1 2:$t1 2:$t2
# allowed: 0 0 0
# allowed: 0 0 1
# allowed: 0 1 0
# allowed: 0 1 1
# allowed: 1 0 0
# allowed: 1 0 1
# allowed: 1 1 1
# weaker: 1 1 0     core 2 sees what came of the store to x, and not that store: it reaches some cores before others
        la    $s0, x
        la    $s1, y
        li    $s4, 1
        addiu $t0, $a0, -1
        beq   $t0, $zero, P1
        addiu $t0, $a0, -2              # delay slot
        beq   $t0, $zero, P2
        nop

P0:     jal   meet
        nop
        sw    $s4, 0($s0)               # x = 1
        halt
P1:     jal   meet
        nop
        lw    $t1, 0($s0)               # $t1 = x
        jal   pause
        nop
        sw    $s4, 0($s1)               # y = 1
        halt
P2:     jal   meet
        nop
        lw    $t1, 0($s1)               # $t1 = y
        jal   pause
        nop
        lw    $t2, 0($s0)               # $t2 = x
        halt

        .data 0x200
x:      .word 0, 0                      # each in a line of its own
y:      .word 0, 0
