# With --cores=2 core 0 stores three words and then a flag in another line; core 1 waits for the flag and adds the words.
# The words come from cache 1, which has them modified: di 1 in the B rows of cache 3, and cache 1 owns the lines from then
# on. Register 11 ($t3) of core 1 is 0000000e.
        la    $t0, flag
        la    $t1, words
        bne   $a0, $zero, consume
        nop
        addiu $t2, $zero, 2
        sw    $t2, 0($t1)
        addiu $t2, $zero, 4
        sw    $t2, 4($t1)
        addiu $t2, $zero, 8
        sw    $t2, 8($t1)
        sw    $t2, 0($t0)
        halt
consume: lw   $t2, 0($t0)
        beq   $t2, $zero, consume
        nop
        lw    $t3, 0($t1)
        lw    $t4, 4($t1)
        lw    $t5, 8($t1)
        addu  $t3, $t3, $t4
        addu  $t3, $t3, $t5
        halt

        .data 0x100
flag:   .word 0, 0
words:  .word 0, 0, 0, 0
