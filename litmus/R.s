# R: core 0 stores to x, and then 1 to y; core 1 stores 2 to y and then loads x.
# cores: 2
# outcome: 1:$t1 y@0x208
# allowed: 0 1    core 1 loads before core 0 stores, so its 2 is replaced
# allowed: 1 1    core 1's store is the first to y, and its load is late
# allowed: 1 2    core 1 comes last
# weaker: 0 2     core 1's load passes its own store, which waits in a buffer
        la    $s0, x
        la    $s1, y
        li    $s4, 1
        li    $s5, 2
        bne   $a0, $zero, P1
        nop

P0:     jal   meet
        nop
        sw    $s4, 0($s0)               # x = 1
        jal   pause
        nop
        sw    $s4, 0($s1)               # y = 1
        halt
P1:     jal   meet
        nop
        sw    $s5, 0($s1)               # y = 2
        jal   pause
        nop
        lw    $t1, 0($s0)               # $t1 = x
        halt

        .data 0x200
x:      .word 0, 0                      # each in a line of its own
y:      .word 0, 0
