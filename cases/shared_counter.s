        la    $t0, counter
        li    $t1, 100
loop:   lw    $t2, 0($t0)
        addiu $t3, $t2, 1
        move  $t4, $t2
        cas   $t4, $t0, $t3
        bne   $t4, $t2, loop
        nop
        addiu $t1, $t1, -1
        bne   $t1, $zero, loop
        nop
        halt
        .data 0x100
counter: .word 0
