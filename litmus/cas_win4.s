# cas_win4, four cores that swap the same 0, each to its number and 1: one alone finds it, and the others what it left.
# cores: 4
# outcome: 0:$t1 1:$t1 2:$t1 3:$t1
# allowed: 0 1 1 1    core 0 is the first
# allowed: 2 0 2 2    core 1
# allowed: 3 3 0 3    core 2
# allowed: 4 4 4 0    core 3
# weaker: 0 0 1 1     two find the 0: the load and the store of a cas are apart
# weaker: 0 0 2 2     the same
        la    $s0, x
        addiu $s4, $a0, 1

        jal   meet
        nop
        move  $t1, $zero
        cas   $t1, $s0, $s4
        halt

        .data 0x200
x:      .word 0, 0                      # in a line of its own
