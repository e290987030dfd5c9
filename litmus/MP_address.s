# MP_address, message passing by an address: y has the address of an object, first of old; core 0 fills new and then stores
# its address to y; core 1 loads the address and then what stands there.
# cores: 2
# outcome: 1:$t1
# allowed: 7     the old object
# allowed: 42    the new one, filled
# weaker: 0      the new one, not filled yet: stores are made out of order, or a load before the one that its address is of
        la    $s0, new
        la    $s1, y
        li    $t0, 42
        bne   $a0, $zero, P1
        nop

P0:     jal   meet
        nop
        sw    $t0, 0($s0)               # new = 42
        jal   pause
        nop
        sw    $s0, 0($s1)               # y = the address of new
        halt
P1:     jal   meet
        nop
        lw    $t2, 0($s1)               # $t2 = y
        jal   pause
        nop
        lw    $t1, 0($t2)               # $t1 = the word there
        halt

        .data 0x200
old:    .word 7, 0                      # each in a line of its own
new:    .word 0, 0
y:      .word old, 0
