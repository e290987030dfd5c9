# Copies a string of words up to its 0, which it copies too: lw and sw rows in turn, and the W rows show the string twice.
        la    $t0, string
        la    $t1, copy
loop:   lw    $t2, 0($t0)
        sw    $t2, 0($t1)
        addiu $t0, $t0, 4
        bne   $t2, $zero, loop
        addiu $t1, $t1, 4               # delay slot
        halt

        .data
string: .word 0x6b, 0x6d, 0x70, 0       # k, m, p, and the end
        .data 0x1000
copy:   .space 16
