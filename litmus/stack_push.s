# stack_push, a stack as a list: each core lets its own node point to the top, and makes it the top by cas, where that is
# still the same; else it begins again. The outcome is the top and the word of each node, by addresses.
# cores: 2
# outcome: top@0x200 node0@0x208 node1@0x210
# allowed: 0x208 0x210 0    core 1 comes first, so core 0's node is the top and points to the other's
# allowed: 0x210 0 0x208    core 0 comes first
# weaker: 0x208 0 0         core 1's node is lost: the load and the store of a cas are apart
# weaker: 0x210 0 0         core 0's is
        la    $s0, top
        la    $s1, node0
        sll   $t0, $a0, 3
        addu  $s1, $s1, $t0             # the own node

        jal   meet
        nop
push:   lw    $t1, 0($s0)
        sw    $t1, 0($s1)
        jal   pause
        nop
        move  $t2, $t1
        cas   $t2, $s0, $s1
        bne   $t2, $t1, push
        nop
        halt

        .data 0x200
top:    .word 0, 0                      # each in a line of its own
node0:  .word 0, 0
node1:  .word 0, 0
