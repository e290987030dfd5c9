# MP_wait, message passing with a loop: core 1 waits for the flag in y, and then loads the message in x.
# cores: 2
# outcome: 1:$t1
# allowed: 42    the message is there when the flag is
# weaker: 0      the flag is seen before the message: stores, or loads, are made out of order
        la    $s0, x
        la    $s1, y
        li    $s4, 1
        li    $t0, 42
        bne   $a0, $zero, P1
        nop

P0:     jal   meet
        nop
        sw    $t0, 0($s0)               # x = 42
        jal   pause
        nop
        sw    $s4, 0($s1)               # y = 1
        halt
P1:     jal   meet
        nop
wait:   lw    $t2, 0($s1)
        beq   $t2, $zero, wait
        nop
        lw    $t1, 0($s0)               # $t1 = x
        halt

        .data 0x200
x:      .word 0, 0                      # each in a line of its own
y:      .word 0, 0
