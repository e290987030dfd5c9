# Results are forwarded: rows read what those directly before them compute, and none waits in ID, so "N wait-operand 0".
# Register 14 ($t6) is 0000000e.
        addiu $t0, $zero, 5
        addiu $t1, $t0, 1               # $t0 comes from EX
        addu  $t2, $t0, $t1             # $t0 comes from M
        addu  $t3, $t0, $t2             # $t0 comes from WB
        addu  $t4, $t0, $t3             # $t0 stands in its register
        addiu $t5, $zero, 6
        addiu $t5, $t5, 1
        addu  $t6, $t5, $t5             # of two results the nearer counts: 7 and 7
        sw    $t6, 0x100($zero)
        halt
