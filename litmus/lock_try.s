# lock_try, a lock that is tried once: a core that finds it free counts and gives it back, and another one goes away. $t1 is
# what a core found in the lock.
# cores: 2
# outcome: 0:$t1 1:$t1 x@0x208
# allowed: 0 1 1    core 1 finds it taken
# allowed: 1 0 1    core 0 finds it taken
# allowed: 0 0 2    the second one comes behind the release
# weaker: 0 0 1     both are inside together, and a step is lost
# weaker: 1 1 0     a lock that nobody took is found taken
        la    $s0, lock
        la    $s1, x
        li    $s4, 1

        jal   meet
        nop
        move  $t1, $zero
        cas   $t1, $s0, $s4
        bne   $t1, $zero, away
        nop
        lw    $t2, 0($s1)
        jal   pause
        nop
        addiu $t2, $t2, 1
        sw    $t2, 0($s1)
        sw    $zero, 0($s0)             # the lock is free
away:   halt

        .data 0x200
lock:   .word 0, 0                      # each in a line of its own
x:      .word 0, 0
