# MP_cas, message passing in which the flag is raised by cas from 0 to 1 and taken by cas from 1 to 2.
# cores: 2
# outcome: 1:$t1 1:$t2 y@0x208
# allowed: 0 0 1    the flag isn't up yet, nor the message there
# allowed: 0 1 1    the flag isn't up yet
# allowed: 1 1 2    the flag is taken, and the message is there
# weaker: 1 0 2     a store is made behind a later cas of its core, or a load before an older one
        la    $s0, x
        la    $s1, y
        li    $s4, 1
        li    $s5, 2
        bne   $a0, $zero, P1
        nop

P0:     jal   meet
        nop
        sw    $s4, 0($s0)               # x = 1
        jal   pause
        nop
        move  $t1, $zero
        cas   $t1, $s1, $s4             # y: from 0 to 1; $t1 = what it had
        halt
P1:     jal   meet
        nop
        move  $t1, $s4
        cas   $t1, $s1, $s5             # y: from 1 to 2; $t1 = what it had
        jal   pause
        nop
        lw    $t2, 0($s0)               # $t2 = x
        halt

        .data 0x200
x:      .word 0, 0                      # each in a line of its own
y:      .word 0, 0
