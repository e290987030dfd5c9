# Bakery, the mutual exclusion of three cores by loads and stores: each takes a number above all that it sees, and waits for
# those with a smaller one; of equal numbers the smaller core goes first.
# cores: 3
# outcome: x@0x230
# allowed: 3    no step is lost
# weaker: 2     a core's loads pass its own stores, which wait in a buffer, and two are inside together
        la    $s0, chooses
        la    $s1, number
        la    $s2, x
        li    $s4, 1
        sll   $t0, $a0, 3
        addu  $s5, $s0, $t0             # where it stands that this core chooses
        addu  $s6, $s1, $t0             # and its number
        sll   $t0, $a1, 3
        addu  $s7, $s1, $t0             # the end of the numbers

        jal   meet
        nop
        sw    $s4, 0($s5)
        move  $t1, $zero                # the greatest number that it has seen
        move  $t0, $s1
look:   lw    $t2, 0($t0)
        slt   $t3, $t1, $t2
        beq   $t3, $zero, looked
        addiu $t0, $t0, 8               # delay slot
        move  $t1, $t2
looked: bne   $t0, $s7, look
        nop
        jal   pause
        nop
        addiu $t1, $t1, 1               # its own number
        sw    $t1, 0($s6)
        sw    $zero, 0($s5)
        move  $t0, $zero                # each core, from 0 on
each:   sll   $t2, $t0, 3
        addu  $t3, $s0, $t2
        addu  $t4, $s1, $t2
chosen: lw    $t5, 0($t3)
        bne   $t5, $zero, chosen
        nop
wait:   lw    $t5, 0($t4)
        beq   $t5, $zero, passed        # that core doesn't want to enter
        slt   $t6, $t5, $t1             # delay slot
        bne   $t6, $zero, wait          # its number is smaller
        nop
        bne   $t5, $t1, passed
        slt   $t6, $t0, $a0             # delay slot
        bne   $t6, $zero, wait          # the numbers are equal, and it is the smaller core
        nop
passed: addiu $t0, $t0, 1
        bne   $t0, $a1, each
        nop
        lw    $t2, 0($s2)
        jal   pause
        nop
        addiu $t2, $t2, 1
        sw    $t2, 0($s2)
        sw    $zero, 0($s6)
        halt

        .data 0x200
chooses: .word 0, 0, 0, 0, 0, 0         # each in a line of its own
number: .word 0, 0, 0, 0, 0, 0
x:      .word 0, 0
