# cas_chain, a chain of cas: core 0 swaps 0 to 1, core 1 swaps 1 to 2, core 2 swaps 2 to 3, each once.
# cores: 3
# outcome: 0:$t1 1:$t1 2:$t1 x@0x200
# allowed: 0 0 0 1    core 0 comes last
# allowed: 0 0 1 1    core 1 is too early, core 2 finds the 1
# allowed: 0 1 0 2    core 2 is too early
# allowed: 0 1 1 2    core 2 comes between
# allowed: 0 1 2 3    each finds what it expects
# weaker: 0 1 2 1     the stores of cas are made out of order
# weaker: 0 1 2 2     the same
        la    $s0, x
        li    $s4, 1
        li    $s5, 2
        li    $s6, 3
        addiu $t0, $a0, -1
        beq   $t0, $zero, P1
        addiu $t0, $a0, -2              # delay slot
        beq   $t0, $zero, P2
        nop

P0:     jal   meet
        nop
        move  $t1, $zero
        cas   $t1, $s0, $s4             # x: from 0 to 1; $t1 = what it had
        halt
P1:     jal   meet
        nop
        move  $t1, $s4
        cas   $t1, $s0, $s5             # x: from 1 to 2; $t1 = what it had
        halt
P2:     jal   meet
        nop
        move  $t1, $s5
        cas   $t1, $s0, $s6             # x: from 2 to 3; $t1 = what it had
        halt

        .data 0x200
x:      .word 0, 0                      # in a line of its own
