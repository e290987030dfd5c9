# WWC, write-to-write causality: core 1 sees core 0's 2 in x and stores to y; core 2 loads y and stores 1 to x.
# cores: 3
# outcome: 1:$t1 2:$t1 x@0x200
# allowed: 0 0 1
# allowed: 0 0 2
# allowed: 0 1 1
# allowed: 0 1 2
# allowed: 1 0 1    core 1 sees core 2's store, so core 2's load was before
# allowed: 1 0 2
# allowed: 2 0 1
# allowed: 2 0 2
# allowed: 2 1 1    core 2 comes last
# weaker: 2 1 2     core 2's store comes of core 0's, and yet before it
# weaker: 1 1 1     load buffering between cores 1 and 2
# weaker: 1 1 2     the same
        la    $s0, x
        la    $s1, y
        li    $s4, 1
        li    $s5, 2
        addiu $t0, $a0, -1
        beq   $t0, $zero, P1
        addiu $t0, $a0, -2              # delay slot
        beq   $t0, $zero, P2
        nop

P0:     jal   meet
        nop
        sw    $s5, 0($s0)               # x = 2
        halt
P1:     jal   meet
        nop
        lw    $t1, 0($s0)               # $t1 = x
        jal   pause
        nop
        sw    $s4, 0($s1)               # y = 1
        halt
P2:     jal   meet
        nop
        lw    $t1, 0($s1)               # $t1 = y
        jal   pause
        nop
        sw    $s4, 0($s0)               # x = 1
        halt

        .data 0x200
x:      .word 0, 0                      # each in a line of its own
y:      .word 0, 0
