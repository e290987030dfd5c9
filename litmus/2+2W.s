# 2+2W, two cores that each store to both words: core 0 to x and then y, core 1 to y and then x.
# cores: 2
# outcome: x@0x200 y@0x208
# allowed: 1 2    core 0 comes last
# allowed: 2 1    core 1 comes last
# allowed: 2 2    both first stores come first
# weaker: 1 1     each core's first store comes behind the other's second: stores are made out of order
        la    $s0, x
        la    $s1, y
        li    $s4, 1
        li    $s5, 2
        bne   $a0, $zero, P1
        nop

P0:     jal   meet
        nop
        sw    $s4, 0($s0)               # x = 1
        jal   pause
        nop
        sw    $s5, 0($s1)               # y = 2
        halt
P1:     jal   meet
        nop
        sw    $s4, 0($s1)               # y = 1
        jal   pause
        nop
        sw    $s5, 0($s0)               # x = 2
        halt

        .data 0x200
x:      .word 0, 0                      # each in a line of its own
y:      .word 0, 0
