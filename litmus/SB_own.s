# SB_own, store buffering with a look at the own word: each core loads what it stored, and then the other's word.
# cores: 2
# outcome: 0:$t1 0:$t2 1:$t1 1:$t2
# allowed: 1 0 1 1    core 0 has loaded both before core 1 stores
# allowed: 1 1 1 0    core 1 has loaded both before core 0 stores
# allowed: 1 1 1 1    both have stored before one loads the other's
# weaker: 1 0 1 0     the own store is handed on from the buffer, and the other core doesn't see it yet
        la    $s0, x
        la    $s1, y
        li    $s4, 1
        bne   $a0, $zero, P1
        nop

P0:     jal   meet
        nop
        sw    $s4, 0($s0)               # x = 1
        jal   pause
        nop
        lw    $t1, 0($s0)               # $t1 = x
        jal   pause
        nop
        lw    $t2, 0($s1)               # $t2 = y
        halt
P1:     jal   meet
        nop
        sw    $s4, 0($s1)               # y = 1
        jal   pause
        nop
        lw    $t1, 0($s1)               # $t1 = y
        jal   pause
        nop
        lw    $t2, 0($s0)               # $t2 = x
        halt

        .data 0x200
x:      .word 0, 0                      # each in a line of its own
y:      .word 0, 0
