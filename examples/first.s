# Stores a word and loads it back: one A row for each, in order, and register 9 ($t1) is 5.
        addiu $t0, $zero, 5
        sw    $t0, 0x100($zero)
        lw    $t1, 0x100($zero)
        halt
