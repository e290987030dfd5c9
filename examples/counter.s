# With --cores=2 both cores count to ten in a shared word by cas, and try again where the other came first: the W row says
# 00000014, and N swapped 20; N cas counts the tries.
        la    $t0, counter
        li    $t1, 10
loop:   lw    $t2, 0($t0)
        addiu $t3, $t2, 1
        move  $t4, $t2
        cas   $t4, $t0, $t3             # stores $t3 where memory has $t4, and gives what it had
        bne   $t4, $t2, loop
        nop
        addiu $t1, $t1, -1
        bne   $t1, $zero, loop
        nop
        halt

        .data 0x100
counter: .word 0
