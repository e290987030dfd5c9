# MP_two, message passing with a message of two words, x and y, and the flag in z; core 1 loads flag, y, x.
# cores: 2
# outcome: 1:$t1 1:$t2 1:$t3
# allowed: 0 0 0
# allowed: 0 0 1
# allowed: 0 1 1    y was stored behind x, so whoever sees it sees x
# allowed: 1 1 1
# weaker: 1 1 0     stores are made out of order, or loads
# weaker: 1 0 1     the same
# weaker: 0 1 0     the same, of x and y
        la    $s0, x
        la    $s1, y
        la    $s2, z
        li    $s4, 1
        bne   $a0, $zero, P1
        nop

P0:     jal   meet
        nop
        sw    $s4, 0($s0)               # x = 1
        jal   pause
        nop
        sw    $s4, 0($s1)               # y = 1
        jal   pause
        nop
        sw    $s4, 0($s2)               # z = 1
        halt
P1:     jal   meet
        nop
        lw    $t1, 0($s2)               # $t1 = z
        jal   pause
        nop
        lw    $t2, 0($s1)               # $t2 = y
        jal   pause
        nop
        lw    $t3, 0($s0)               # $t3 = x
        halt

        .data 0x200
x:      .word 0, 0                      # each in a line of its own
y:      .word 0, 0
z:      .word 0, 0
