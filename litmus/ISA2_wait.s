# ISA2_wait, ISA2 with loops: core 1 waits for the flag y and raises the flag z; core 2 waits for that, and loads the message
# in x that core 0 stored before it raised y.
# cores: 3
# outcome: 2:$t1
# allowed: 42    the message is there when a flag is that was raised for it
# weaker: 0      core 0's store reaches core 1 before core 2, or stores or loads are made out of order
        la    $s0, x
        la    $s1, y
        la    $s2, z
        li    $s4, 1
        li    $t2, 42
        addiu $t0, $a0, -1
        beq   $t0, $zero, P1
        addiu $t0, $a0, -2              # delay slot
        beq   $t0, $zero, P2
        nop

P0:     jal   meet
        nop
        sw    $t2, 0($s0)               # x = 42
        jal   pause
        nop
        sw    $s4, 0($s1)               # y = 1
        halt
P1:     jal   meet
        nop
wait1:  lw    $t1, 0($s1)
        beq   $t1, $zero, wait1
        nop
        sw    $s4, 0($s2)               # z = 1
        halt
P2:     jal   meet
        nop
wait2:  lw    $t1, 0($s2)
        beq   $t1, $zero, wait2
        nop
        lw    $t1, 0($s0)               # $t1 = x
        halt

        .data 0x200
x:      .word 0, 0                      # each in a line of its own
y:      .word 0, 0
z:      .word 0, 0
