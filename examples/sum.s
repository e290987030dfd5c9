# Sums a table: four lw rows, and then the sum, 00000064, is stored behind the table. The W rows show both.
        la    $t0, table
        la    $t1, sum
loop:   lw    $t2, 0($t0)
        addiu $t0, $t0, 4
        bne   $t0, $t1, loop
        addu  $v0, $v0, $t2             # delay slot
        sw    $v0, 0($t1)
        halt

        .data 0x1000
table:  .word 10, 20, 30, 40
sum:    .space 4
