# Peterson, the mutual exclusion of two cores by loads and stores: each says that it wants to enter, and lets the other go
# first; two rounds each.
# cores: 2
# outcome: x@0x218
# allowed: 4    no step is lost
# weaker: 3     a core's loads pass its own stores, which wait in a buffer, and both are inside together
        la    $s0, wants
        la    $s1, turn
        la    $s2, x
        li    $s3, 2                    # rounds
        li    $s4, 1
        xori  $s5, $a0, 1               # the other core
        sll   $t0, $a0, 3
        addu  $s6, $s0, $t0             # where it stands that this core wants to enter
        sll   $t0, $s5, 3
        addu  $s7, $s0, $t0             # and that the other does

        jal   meet
        nop
take:   sw    $s4, 0($s6)
        sw    $s5, 0($s1)               # the other one's turn
        jal   pause
        nop
wait:   lw    $t0, 0($s7)
        beq   $t0, $zero, enter
        nop
        lw    $t1, 0($s1)
        beq   $t1, $s5, wait
        nop
enter:  lw    $t2, 0($s2)
        jal   pause
        nop
        addiu $t2, $t2, 1
        sw    $t2, 0($s2)
        sw    $zero, 0($s6)
        addiu $s3, $s3, -1
        bne   $s3, $zero, take
        nop
        halt

        .data 0x200
wants:  .word 0, 0, 0, 0                # each in a line of its own
turn:   .word 0, 0
x:      .word 0, 0
