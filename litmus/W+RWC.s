# W+RWC: core 0 stores to x and y; core 1 loads y and then z; core 2 stores to z and then loads x.
# cores: 3
# outcome: 1:$t1 1:$t2 2:$t1
# allowed: 0 0 0
# allowed: 0 0 1
# allowed: 0 1 0
# allowed: 0 1 1
# allowed: 1 0 1
# allowed: 1 1 0
# allowed: 1 1 1
# weaker: 1 0 0     core 2's load passes its own store, which waits in a buffer
        la    $s0, x
        la    $s1, y
        la    $s2, z
        li    $s4, 1
        addiu $t0, $a0, -1
        beq   $t0, $zero, P1
        addiu $t0, $a0, -2              # delay slot
        beq   $t0, $zero, P2
        nop

P0:     jal   meet
        nop
        sw    $s4, 0($s0)               # x = 1
        jal   pause
        nop
        sw    $s4, 0($s1)               # y = 1
        halt
P1:     jal   meet
        nop
        lw    $t1, 0($s1)               # $t1 = y
        jal   pause
        nop
        lw    $t2, 0($s2)               # $t2 = z
        halt
P2:     jal   meet
        nop
        sw    $s4, 0($s2)               # z = 1
        jal   pause
        nop
        lw    $t1, 0($s0)               # $t1 = x
        halt

        .data 0x200
x:      .word 0, 0                      # each in a line of its own
y:      .word 0, 0
z:      .word 0, 0
