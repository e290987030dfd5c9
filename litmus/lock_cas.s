# lock_cas, a spin lock: two cores take it by cas from 0 to 1 and give it back by a store, and count to three each under it.
# cores: 2
# outcome: x@0x208
# allowed: 6    no step is lost
# weaker: 5     a load is made before the lock is taken, or a store behind its release
        la    $s0, lock
        la    $s1, x
        li    $s2, 3                    # rounds
        li    $s4, 1

        jal   meet
        nop
take:   move  $t0, $zero
        cas   $t0, $s0, $s4
        bne   $t0, $zero, take
        nop
        lw    $t1, 0($s1)
        jal   pause
        nop
        addiu $t1, $t1, 1
        sw    $t1, 0($s1)
        sw    $zero, 0($s0)             # the lock is free
        jal   pause
        nop
        addiu $s2, $s2, -1
        bne   $s2, $zero, take
        nop
        halt

        .data 0x200
lock:   .word 0, 0                      # each in a line of its own
x:      .word 0, 0
