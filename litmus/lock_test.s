# lock_test, a spin lock that is looked at before it is tried: three cores wait by loads until it is free, take it by cas, and
# count to two each under it.
# cores: 3
# outcome: x@0x208
# allowed: 6    no step is lost
# weaker: 5     a load is made before the lock is taken, or a store behind its release
        la    $s0, lock
        la    $s1, x
        li    $s2, 2                    # rounds
        li    $s4, 1

        jal   meet
        nop
test:   lw    $t0, 0($s0)
        bne   $t0, $zero, test
        nop
        cas   $t0, $s0, $s4             # $t0 is 0 here
        bne   $t0, $zero, test
        nop
        lw    $t1, 0($s1)
        jal   pause
        nop
        addiu $t1, $t1, 1
        sw    $t1, 0($s1)
        sw    $zero, 0($s0)             # the lock is free
        jal   pause
        nop
        addiu $s2, $s2, -1
        bne   $s2, $zero, test
        nop
        halt

        .data 0x200
lock:   .word 0, 0                      # each in a line of its own
x:      .word 0, 0
