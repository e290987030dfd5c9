# IRIW, independent reads of independent writes: cores 0 and 1 store to x and y, cores 2 and 3 load both, in
# the two orders.
# cores: 4
# outcome: 2:$t1 2:$t2 3:$t1 3:$t2
# allowed: 0 0 0 0
# allowed: 0 0 0 1
# allowed: 0 0 1 0
# allowed: 0 0 1 1
# allowed: 0 1 0 0
# allowed: 0 1 0 1
# allowed: 0 1 1 0
# allowed: 0 1 1 1
# allowed: 1 0 0 0
# allowed: 1 0 0 1
# allowed: 1 0 1 1
# allowed: 1 1 0 0
# allowed: 1 1 0 1
# allowed: 1 1 1 0
# allowed: 1 1 1 1
# weaker: 1 0 1 0     the readers see the stores in different orders: a store reaches some cores before others
        la    $s0, x
        la    $s1, y
        li    $s4, 1
        addiu $t0, $a0, -1
        beq   $t0, $zero, P1
        addiu $t0, $a0, -2              # delay slot
        beq   $t0, $zero, P2
        addiu $t0, $a0, -3              # delay slot
        beq   $t0, $zero, P3
        nop

P0:     jal   meet
        nop
        sw    $s4, 0($s0)               # x = 1
        halt
P1:     jal   meet
        nop
        sw    $s4, 0($s1)               # y = 1
        halt
P2:     jal   meet
        nop
        lw    $t1, 0($s0)               # $t1 = x
        jal   pause
        nop
        lw    $t2, 0($s1)               # $t2 = y
        halt
P3:     jal   meet
        nop
        lw    $t1, 0($s1)               # $t1 = y
        jal   pause
        nop
        lw    $t2, 0($s0)               # $t2 = x
        halt

        .data 0x200
x:      .word 0, 0                      # each in a line of its own
y:      .word 0, 0
