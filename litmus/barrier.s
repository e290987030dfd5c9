# barrier, a barrier by cas: each of three cores stores to its own word, waits until all have, and loads the next core's.
# cores: 3
# outcome: 0:$t1 1:$t1 2:$t1
# allowed: 1 1 1    whoever is past the barrier sees what was stored before it
# weaker: 0 1 1     a store is made behind a later cas of its core, or a load before the barrier is passed
# weaker: 1 0 1     the same
# weaker: 1 1 0     the same
        la    $s0, words
        la    $s1, count
        li    $s4, 1
        sll   $t0, $a0, 3
        addu  $s2, $s0, $t0             # the own word
        addiu $t0, $a0, 1
        bne   $t0, $a1, follow
        nop
        move  $t0, $zero                # behind the last core comes core 0
follow: sll   $t0, $t0, 3
        addu  $s3, $s0, $t0             # the next core's word

        jal   meet
        nop
        sw    $s4, 0($s2)
        jal   pause
        nop
arrive: lw    $t2, 0($s1)
        addiu $t3, $t2, 1
        move  $t4, $t2
        cas   $t4, $s1, $t3
        bne   $t4, $t2, arrive
        nop
wait:   lw    $t2, 0($s1)
        bne   $t2, $a1, wait
        nop
        lw    $t1, 0($s3)
        halt

        .data 0x200
words:  .word 0, 0, 0, 0, 0, 0          # each in a line of its own
count:  .word 0, 0
