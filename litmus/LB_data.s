# LB_data, load buffering with data: each core stores what it loaded from the other's word.
# cores: 2
# outcome: 0:$t1 1:$t1
# allowed: 0 0    nobody stores anything but what was loaded, and that began as 0
# weaker: 1 1     a guessed word, stored before the load is answered, comes true out of thin air
        la    $s0, x
        la    $s1, y
        bne   $a0, $zero, P1
        nop

P0:     jal   meet
        nop
        lw    $t1, 0($s0)               # $t1 = x
        jal   pause
        nop
        sw    $t1, 0($s1)               # y = $t1
        halt
P1:     jal   meet
        nop
        lw    $t1, 0($s1)               # $t1 = y
        jal   pause
        nop
        sw    $t1, 0($s0)               # x = $t1
        halt

        .data 0x200
x:      .word 0, 0                      # each in a line of its own
y:      .word 0, 0
