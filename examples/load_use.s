# What a load costs that is used soon: row 3 of the timetable stays in ID two cycles longer, row 6 one, and row 10 none, so
# "N wait-operand 3".
        la    $t0, numbers              # rows 0 and 1
        lw    $t1, 0($t0)
        addu  $t2, $t1, $t1             # row 3: directly behind its load
        lw    $t3, 4($t0)
        nop
        addu  $t4, $t3, $t3             # row 6: one instruction between
        lw    $t5, 8($t0)
        nop
        nop
        addu  $t6, $t5, $t5             # row 10: two between
        halt

        .data 0x100
numbers: .word 1, 2, 3
