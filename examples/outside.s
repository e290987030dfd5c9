# Loads the last word of memory (one A row), and then the word behind it: the C row says outside.
        li    $t0, 0xfffc
        lw    $t1, 0($t0)
        lw    $t1, 4($t0)
        halt
