# Z6.0: core 0 stores to x and y; core 1 loads y and then stores 1 to z; core 2 stores 2 to z and then loads x.
# cores: 3
# outcome: 1:$t1 2:$t1 z@0x210
# allowed: 0 0 1
# allowed: 0 0 2
# allowed: 0 1 1
# allowed: 0 1 2
# allowed: 1 0 1
# allowed: 1 1 1
# allowed: 1 1 2
# weaker: 1 0 2     core 2's load passes its own store, which waits in a buffer
        la    $s0, x
        la    $s1, y
        la    $s2, z
        li    $s4, 1
        li    $s5, 2
        addiu $t0, $a0, -1
        beq   $t0, $zero, P1
        addiu $t0, $a0, -2              # delay slot
        beq   $t0, $zero, P2
        nop

P0:     jal   meet
        nop
        sw    $s4, 0($s0)               # x = 1
        jal   pause
        nop
        sw    $s4, 0($s1)               # y = 1
        halt
P1:     jal   meet
        nop
        lw    $t1, 0($s1)               # $t1 = y
        jal   pause
        nop
        sw    $s4, 0($s2)               # z = 1
        halt
P2:     jal   meet
        nop
        sw    $s5, 0($s2)               # z = 2
        jal   pause
        nop
        lw    $t1, 0($s0)               # $t1 = x
        halt

        .data 0x200
x:      .word 0, 0                      # each in a line of its own
y:      .word 0, 0
z:      .word 0, 0
