# CoRR_order, coherence of two loads and the last word: cores 0 and 1 store to x, core 2 loads twice.
# cores: 3
# outcome: 2:$t1 2:$t2 x@0x200
# allowed: 0 0 1
# allowed: 0 0 2
# allowed: 0 1 1
# allowed: 0 1 2
# allowed: 0 2 1
# allowed: 0 2 2
# allowed: 1 1 1
# allowed: 1 1 2
# allowed: 1 2 2    core 2 sees 1 replaced by 2, and so it is
# allowed: 2 1 1
# allowed: 2 2 1
# allowed: 2 2 2
# weaker: 1 2 1     core 2 sees the stores in another order than the memory
# weaker: 2 1 2     the same
        la    $s0, x
        li    $s4, 1
        li    $s5, 2
        addiu $t0, $a0, -1
        beq   $t0, $zero, P1
        addiu $t0, $a0, -2              # delay slot
        beq   $t0, $zero, P2
        nop

P0:     jal   meet
        nop
        sw    $s4, 0($s0)               # x = 1
        halt
P1:     jal   meet
        nop
        sw    $s5, 0($s0)               # x = 2
        halt
P2:     jal   meet
        nop
        lw    $t1, 0($s0)               # $t1 = x
        jal   pause
        nop
        lw    $t2, 0($s0)               # $t2 = x
        halt

        .data 0x200
x:      .word 0, 0                      # in a line of its own
