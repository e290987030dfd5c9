# With --budget=6 the core is spent while addu waits in ID for the loaded word, and halt in IF: these two have no row. The C row
# says spent 6 3, and the last row, that of lw, has its W one cycle past the budget.
        addiu $t0, $zero, 5
        sw    $t0, 0x100($zero)
        lw    $t1, 0x100($zero)
        addu  $t2, $t1, $t1
        halt
