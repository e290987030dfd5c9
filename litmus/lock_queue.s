# lock_queue, a lock with a queue: four cores put a node of their own at its tail by cas, wait until the node before theirs is
# free, count to two each, and free their own node; the next round takes the node that they waited for.
# cores: 4
# outcome: x@0x200
# allowed: 8    no step is lost
# weaker: 7     a load is made before the node is seen free, or a store behind the node's release
        la    $s0, x
        la    $s1, tail
        la    $s2, nodes
        sll   $t0, $a0, 3
        addu  $s2, $s2, $t0             # the own node
        li    $s3, 2                    # rounds
        li    $s4, 1

        jal   meet
        nop
take:   sw    $s4, 0($s2)               # the own node is taken
queue:  lw    $t0, 0($s1)
        move  $t1, $t0
        cas   $t1, $s1, $s2
        bne   $t1, $t0, queue
        nop
wait:   lw    $t1, 0($t0)               # the node before
        bne   $t1, $zero, wait
        nop
        lw    $t2, 0($s0)
        jal   pause
        nop
        addiu $t2, $t2, 1
        sw    $t2, 0($s0)
        sw    $zero, 0($s2)             # the own node is free
        move  $s2, $t0
        addiu $s3, $s3, -1
        bne   $s3, $zero, take
        nop
        halt

        .data 0x200
x:      .word 0, 0                      # each in a line of its own
tail:   .word first, 0
first:  .word 0, 0
nodes:  .word 0, 0, 0, 0, 0, 0, 0, 0
