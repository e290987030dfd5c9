# Two compare-and-swaps: the first finds the 0 that it expects and stores 1, the second doesn't and stores nothing (-).
        la    $t0, lock
        li    $t1, 1
        cas   $t2, $t0, $t1             # $t2 is 0 before and after
        cas   $t3, $t0, $t1             # $t3 becomes 1: the lock is taken
        halt

        .data
lock:   .word 0
