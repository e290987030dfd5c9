# SB_cas, store buffering with a cas on a word of its own between the store and the load.
# cores: 2
# outcome: 0:$t1 1:$t1
# allowed: 0 1    core 0 has loaded before core 1 stores
# allowed: 1 0    core 1 has loaded before core 0 stores
# allowed: 1 1    both have stored before one loads
# weaker: 0 0     a cas that leaves older stores of its core in a buffer
        la    $s0, x
        la    $s1, y
        la    $s2, f
        la    $s3, g
        li    $s4, 1
        bne   $a0, $zero, P1
        nop

P0:     jal   meet
        nop
        sw    $s4, 0($s0)               # x = 1
        jal   pause
        nop
        move  $t2, $zero
        cas   $t2, $s2, $s4             # f: from 0 to 1; $t2 = what it had
        jal   pause
        nop
        lw    $t1, 0($s1)               # $t1 = y
        halt
P1:     jal   meet
        nop
        sw    $s4, 0($s1)               # y = 1
        jal   pause
        nop
        move  $t2, $zero
        cas   $t2, $s3, $s4             # g: from 0 to 1; $t2 = what it had
        jal   pause
        nop
        lw    $t1, 0($s0)               # $t1 = x
        halt

        .data 0x200
x:      .word 0, 0                      # each in a line of its own
y:      .word 0, 0
f:      .word 0, 0
g:      .word 0, 0
