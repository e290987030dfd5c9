# The store behind a taken branch is done, the one that the branch skips isn't: one A row and one W row, at 00000100.
        addiu $t0, $zero, 1
        b     done
        sw    $t0, 0x100($zero)         # delay slot
        sw    $t0, 0x104($zero)
done:   halt
