# Z6.1: core 0 stores 2 to x and 1 to y; core 1 stores 2 to y, and to z; core 2 loads z and then stores 1 to x.
# cores: 3
# outcome: 2:$t1 x@0x200 y@0x208
# allowed: 0 1 1
# allowed: 0 1 2
# allowed: 0 2 1
# allowed: 0 2 2
# allowed: 1 1 1
# allowed: 1 1 2
# allowed: 1 2 1
# weaker: 1 2 2     the stores of core 0 or core 1 are made out of order, or core 2's store before its load
        la    $s0, x
        la    $s1, y
        la    $s2, z
        li    $s4, 1
        li    $s5, 2
        addiu $t0, $a0, -1
        beq   $t0, $zero, P1
        addiu $t0, $a0, -2              # delay slot
        beq   $t0, $zero, P2
        nop

P0:     jal   meet
        nop
        sw    $s5, 0($s0)               # x = 2
        jal   pause
        nop
        sw    $s4, 0($s1)               # y = 1
        halt
P1:     jal   meet
        nop
        sw    $s5, 0($s1)               # y = 2
        jal   pause
        nop
        sw    $s4, 0($s2)               # z = 1
        halt
P2:     jal   meet
        nop
        lw    $t1, 0($s2)               # $t1 = z
        jal   pause
        nop
        sw    $s4, 0($s0)               # x = 1
        halt

        .data 0x200
x:      .word 0, 0                      # each in a line of its own
y:      .word 0, 0
z:      .word 0, 0
