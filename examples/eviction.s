# With --sets=4 lines 32, 36 and 40 stand in the same set of the data cache, which has room for one. The stored word of line
# 32 goes to main memory as line 36 takes its place (victim 32, and a flush is counted); line 36 was only loaded and is
# dropped with no write. At the end line 32 is loaded again, with the word that was stored.
        la    $t0, table
        addiu $t1, $zero, 7
        sw    $t1, 0($t0)               # line 32
        lw    $t2, 32($t0)              # line 36
        lw    $t3, 64($t0)              # line 40
        lw    $t4, 0($t0)               # line 32
        halt

        .data 0x100
table:  .space 72
