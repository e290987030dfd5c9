# 3.2W, 2+2W in a ring of three cores: each stores 1 to its own word, and then 2 to the next core's.
# cores: 3
# outcome: x@0x200 y@0x208 z@0x210
# allowed: 1 1 2
# allowed: 1 2 1
# allowed: 1 2 2
# allowed: 2 1 1
# allowed: 2 1 2
# allowed: 2 2 1
# allowed: 2 2 2    all first stores come first
# weaker: 1 1 1     each first store is the last one to its word: stores are made out of order
        la    $s0, x
        la    $s1, y
        la    $s2, z
        li    $s4, 1
        li    $s5, 2
        addiu $t0, $a0, -1
        beq   $t0, $zero, P1
        addiu $t0, $a0, -2              # delay slot
        beq   $t0, $zero, P2
        nop

P0:     jal   meet
        nop
        sw    $s4, 0($s0)               # x = 1
        jal   pause
        nop
        sw    $s5, 0($s1)               # y = 2
        halt
P1:     jal   meet
        nop
        sw    $s4, 0($s1)               # y = 1
        jal   pause
        nop
        sw    $s5, 0($s2)               # z = 2
        halt
P2:     jal   meet
        nop
        sw    $s4, 0($s2)               # z = 1
        jal   pause
        nop
        sw    $s5, 0($s0)               # x = 2
        halt

        .data 0x200
x:      .word 0, 0                      # each in a line of its own
y:      .word 0, 0
z:      .word 0, 0
