# lock_ticket, a lock with tickets: three cores draw numbers by cas, wait until theirs is served, and count to two each.
# cores: 3
# outcome: x@0x210
# allowed: 6    no step is lost
# weaker: 5     a load is made before the ticket is served, or a store behind the next one's
        la    $s0, next
        la    $s1, served
        la    $s2, x
        li    $s3, 2                    # rounds

        jal   meet
        nop
draw:   lw    $t0, 0($s0)
        addiu $t1, $t0, 1
        move  $t2, $t0
        cas   $t2, $s0, $t1
        bne   $t2, $t0, draw
        nop
wait:   lw    $t2, 0($s1)
        bne   $t2, $t0, wait
        nop
        lw    $t3, 0($s2)
        jal   pause
        nop
        addiu $t3, $t3, 1
        sw    $t3, 0($s2)
        sw    $t1, 0($s1)               # the next number is served
        jal   pause
        nop
        addiu $s3, $s3, -1
        bne   $s3, $zero, draw
        nop
        halt

        .data 0x200
next:   .word 0, 0                      # each in a line of its own
served: .word 0, 0
x:      .word 0, 0
