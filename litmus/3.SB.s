# 3.SB, store buffering in a ring of three cores: each stores to its own word and loads the next core's.
# cores: 3
# outcome: 0:$t1 1:$t1 2:$t1
# allowed: 0 0 1
# allowed: 0 1 0
# allowed: 0 1 1
# allowed: 1 0 0
# allowed: 1 0 1
# allowed: 1 1 0
# allowed: 1 1 1
# weaker: 0 0 0     each load passes its core's store: whichever store is the first, the load of the core before it comes later
        la    $s0, x
        la    $s1, y
        la    $s2, z
        li    $s4, 1
        addiu $t0, $a0, -1
        beq   $t0, $zero, P1
        addiu $t0, $a0, -2              # delay slot
        beq   $t0, $zero, P2
        nop

P0:     jal   meet
        nop
        sw    $s4, 0($s0)               # x = 1
        jal   pause
        nop
        lw    $t1, 0($s1)               # $t1 = y
        halt
P1:     jal   meet
        nop
        sw    $s4, 0($s1)               # y = 1
        jal   pause
        nop
        lw    $t1, 0($s2)               # $t1 = z
        halt
P2:     jal   meet
        nop
        sw    $s4, 0($s2)               # z = 1
        jal   pause
        nop
        lw    $t1, 0($s0)               # $t1 = x
        halt

        .data 0x200
x:      .word 0, 0                      # each in a line of its own
y:      .word 0, 0
z:      .word 0, 0
