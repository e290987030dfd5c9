# SB_line, store buffering in one line: the two words stand in the same line of memory.
# cores: 2
# outcome: 0:$t1 1:$t1
# allowed: 0 1    core 0 has loaded before core 1 stores
# allowed: 1 0    core 1 has loaded before core 0 stores
# allowed: 1 1    both have stored before one loads
# weaker: 0 0     stores wait in a buffer of their core, and both loads pass them
        la    $s0, x
        la    $s1, y
        li    $s4, 1
        bne   $a0, $zero, P1
        nop

P0:     jal   meet
        nop
        sw    $s4, 0($s0)               # x = 1
        jal   pause
        nop
        lw    $t1, 0($s1)               # $t1 = y
        halt
P1:     jal   meet
        nop
        sw    $s4, 0($s1)               # y = 1
        jal   pause
        nop
        lw    $t1, 0($s0)               # $t1 = x
        halt

        .data 0x200
x:      .word 0                         # both in one line
y:      .word 0
