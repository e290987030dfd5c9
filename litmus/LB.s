# LB, load buffering: each core loads the other's word, and then stores to its own.
# cores: 2
# outcome: 0:$t1 1:$t1
# allowed: 0 0    both load before one stores
# allowed: 0 1    core 1 sees core 0's store
# allowed: 1 0    core 0 sees core 1's store
# weaker: 1 1     stores are made before older loads of their core are answered
        la    $s0, x
        la    $s1, y
        li    $s4, 1
        bne   $a0, $zero, P1
        nop

P0:     jal   meet
        nop
        lw    $t1, 0($s0)               # $t1 = x
        jal   pause
        nop
        sw    $s4, 0($s1)               # y = 1
        halt
P1:     jal   meet
        nop
        lw    $t1, 0($s1)               # $t1 = y
        jal   pause
        nop
        sw    $s4, 0($s0)               # x = 1
        halt

        .data 0x200
x:      .word 0, 0                      # each in a line of its own
y:      .word 0, 0
