# seqlock, a sequence lock: core 0 makes the number odd, stores to x and y, and makes it even again; core 1 loads both words
# between two looks at the number, until it is even and the same in both.
# cores: 2
# outcome: 1:$t1 1:$t2
# allowed: 0 0    both before
# allowed: 1 1    both behind
# weaker: 0 1     one of each: stores, or loads, are made out of order
# weaker: 1 0     the same
        la    $s0, x
        la    $s1, y
        la    $s2, number
        li    $s4, 1
        li    $s5, 2
        bne   $a0, $zero, P1
        nop

P0:     jal   meet
        nop
        sw    $s4, 0($s2)               # the number is odd
        sw    $s4, 0($s0)               # x = 1
        jal   pause
        nop
        sw    $s4, 0($s1)               # y = 1
        sw    $s5, 0($s2)               # the number is even
        halt
P1:     jal   meet
        nop
again:  lw    $t3, 0($s2)
        andi  $t4, $t3, 1
        bne   $t4, $zero, again
        nop
        lw    $t1, 0($s0)               # $t1 = x
        jal   pause
        nop
        lw    $t2, 0($s1)               # $t2 = y
        lw    $t5, 0($s2)
        bne   $t5, $t3, again
        nop
        halt

        .data 0x200
x:      .word 0, 0                      # each in a line of its own
y:      .word 0, 0
number: .word 0, 0
