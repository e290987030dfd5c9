# Sorts five words in place by exchanging neighbours: the W rows show them at the end, from -7 (fffffff9) to 9; 0 has no row.
        la    $s0, list
        la    $s1, last
pass:   move  $t0, $s0
        li    $t4, 0                    # exchanges in this pass
next:   lw    $t1, 0($t0)
        lw    $t2, 4($t0)
        slt   $t3, $t2, $t1
        beq   $t3, $zero, keep
        nop                             # delay slot
        sw    $t2, 0($t0)
        sw    $t1, 4($t0)
        li    $t4, 1
keep:   addiu $t0, $t0, 4
        bne   $t0, $s1, next
        nop                             # delay slot
        bne   $t4, $zero, pass
        nop                             # delay slot
        halt

        .data
list:   .word 5, 9, -7, 3
last:   .word 0
