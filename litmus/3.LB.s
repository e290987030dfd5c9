# 3.LB, load buffering in a ring of three cores: each loads the word of the core before, and stores to its own.
# cores: 3
# outcome: 0:$t1 1:$t1 2:$t1
# allowed: 0 0 0
# allowed: 0 0 1
# allowed: 0 1 0
# allowed: 0 1 1
# allowed: 1 0 0
# allowed: 1 0 1
# allowed: 1 1 0
# weaker: 1 1 1     each store is made before its core's load: whichever load is the first, it finds a 0
        la    $s0, x
        la    $s1, y
        la    $s2, z
        li    $s4, 1
        addiu $t0, $a0, -1
        beq   $t0, $zero, P1
        addiu $t0, $a0, -2              # delay slot
        beq   $t0, $zero, P2
        nop

P0:     jal   meet
        nop
        lw    $t1, 0($s0)               # $t1 = x
        jal   pause
        nop
        sw    $s4, 0($s1)               # y = 1
        halt
P1:     jal   meet
        nop
        lw    $t1, 0($s1)               # $t1 = y
        jal   pause
        nop
        sw    $s4, 0($s2)               # z = 1
        halt
P2:     jal   meet
        nop
        lw    $t1, 0($s2)               # $t1 = z
        jal   pause
        nop
        sw    $s4, 0($s0)               # x = 1
        halt

        .data 0x200
x:      .word 0, 0                      # each in a line of its own
y:      .word 0, 0
z:      .word 0, 0
