# MP, message passing: core 0 stores a message in x and then a flag in y; core 1 loads the flag and then the message.
# cores: 2
# outcome: 1:$t1 1:$t2
# allowed: 0 0    core 1 has loaded both before the message
# allowed: 0 1    the message comes between its loads
# allowed: 1 1    core 1 sees the flag, and so the message
# weaker: 1 0     the stores, or the loads, are made out of order
        la    $s0, x
        la    $s1, y
        li    $s4, 1
        bne   $a0, $zero, P1
        nop

P0:     jal   meet
        nop
        sw    $s4, 0($s0)               # x = 1
        jal   pause
        nop
        sw    $s4, 0($s1)               # y = 1
        halt
P1:     jal   meet
        nop
        lw    $t1, 0($s1)               # $t1 = y
        jal   pause
        nop
        lw    $t2, 0($s0)               # $t2 = x
        halt

        .data 0x200
x:      .word 0, 0                      # each in a line of its own
y:      .word 0, 0
