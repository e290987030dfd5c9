# With --cores=2 each core adds its half of a table and books it under a spin lock taken by cas: the total at 0000007c is
# 000000cc, and the two words behind it are the shares; N cas counts the tries.
main:   la    $s0, table
        la    $s1, lock
        la    $s2, total
        sll   $t0, $a0, 2
        addu  $t0, $s0, $t0             # core c adds the words c, c + P, c + 2P, .. of the table
        sll   $t1, $a1, 2
        addiu $t2, $s0, 32
        move  $t3, $zero
next:   lw    $t4, 0($t0)
        addu  $t0, $t0, $t1
        sltu  $t5, $t0, $t2
        bne   $t5, $zero, next
        addu  $t3, $t3, $t4             # delay slot
        li    $t6, 1
spin:   move  $t7, $zero
        cas   $t7, $s1, $t6
        bne   $t7, $zero, spin
        nop
        lw    $t8, 0($s2)
        addu  $t8, $t8, $t3
        sw    $t8, 0($s2)
        sll   $t9, $a0, 2
        addu  $t9, $s2, $t9
        sw    $t3, 4($t9)
        sw    $zero, 0($s1)
        halt

        .data
lock:   .word 0
total:  .word 0, 0, 0
table:  .word 1, 4, 9, 16, 25, 36, 49, 64
