# cas_win, two cores that swap the same 0: one alone finds it.
# cores: 2
# outcome: 0:$t1 1:$t1 x@0x200
# allowed: 0 1 1    core 0 is the first
# allowed: 2 0 2    core 1 is the first
# weaker: 0 0 2     both find the 0: the load and the store of a cas are apart
# weaker: 0 0 1     the same
        la    $s0, x
        li    $s4, 1
        li    $s5, 2
        bne   $a0, $zero, P1
        nop

P0:     jal   meet
        nop
        move  $t1, $zero
        cas   $t1, $s0, $s4             # x: from 0 to 1; $t1 = what it had
        halt
P1:     jal   meet
        nop
        move  $t1, $zero
        cas   $t1, $s0, $s5             # x: from 0 to 2; $t1 = what it had
        halt

        .data 0x200
x:      .word 0, 0                      # in a line of its own
