# With --cores=2 each core counts to three in a word of its own, and nobody reads the other's; but both words stand in line
# 32. So the line goes from cache 1 to cache 3 and back: each store wants the only copy, and every other of the B rows on line
# 32 has a cache that intervenes. With sll $t1, $a0, 3 the second word stands in line 33, and each core has its line alone.
        la    $t0, counters
        sll   $t1, $a0, 2               # core 0 has the first word, core 1 the second
        addu  $t0, $t0, $t1
        li    $t2, 3
loop:   lw    $t3, 0($t0)
        addiu $t2, $t2, -1
        addiu $t3, $t3, 1
        bne   $t2, $zero, loop
        sw    $t3, 0($t0)               # delay slot
        halt

        .data 0x100
counters: .word 0, 0
