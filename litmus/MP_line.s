# MP_line, message passing in one line: message and flag stand in the same line of memory.
# cores: 2
# outcome: 1:$t1 1:$t2
# allowed: 0 0
# allowed: 0 1
# allowed: 1 1
# weaker: 1 0     the stores, or the loads, are made out of order
        la    $s0, x
        la    $s1, y
        li    $s4, 1
        bne   $a0, $zero, P1
        nop

P0:     jal   meet
        nop
        sw    $s4, 0($s0)               # x = 1
        jal   pause
        nop
        sw    $s4, 0($s1)               # y = 1
        halt
P1:     jal   meet
        nop
        lw    $t1, 0($s1)               # $t1 = y
        jal   pause
        nop
        lw    $t2, 0($s0)               # $t2 = x
        halt

        .data 0x200
x:      .word 0                         # both in one line
y:      .word 0
