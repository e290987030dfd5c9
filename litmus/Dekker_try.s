# Dekker_try, the entry alone: each core says that it wants to enter, and enters where the other one doesn't, and counts.
# $t1 is 1 where a core has entered.
# cores: 2
# outcome: 0:$t1 1:$t1 x@0x210
# allowed: 0 0 0    both want, and both go away
# allowed: 0 1 1    core 0 sees that core 1 wants
# allowed: 1 0 1    core 1 sees that core 0 wants
# weaker: 1 1 1     both enter, since a load passes its core's own store, and a step is lost
# weaker: 1 1 2     both enter, and none is lost
        la    $s0, wants
        la    $s1, x
        li    $s4, 1
        xori  $t0, $a0, 1               # the other core
        sll   $t0, $t0, 3
        addu  $s7, $s0, $t0             # where it stands that it wants to enter
        sll   $t0, $a0, 3
        addu  $s6, $s0, $t0             # and that this core does

        jal   meet
        nop
        sw    $s4, 0($s6)
        jal   pause
        nop
        lw    $t0, 0($s7)
        bne   $t0, $zero, away
        nop
        move  $t1, $s4
        lw    $t2, 0($s1)
        jal   pause
        nop
        addiu $t2, $t2, 1
        sw    $t2, 0($s1)
away:   halt

        .data 0x200
wants:  .word 0, 0, 0, 0                # each in a line of its own
x:      .word 0, 0
