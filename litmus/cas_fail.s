# cas_fail, a cas of core 0 that never finds the 5 that it expects, beside a store of core 1.
# cores: 2
# outcome: 0:$t1 x@0x200
# allowed: 0 2    the cas is the first
# allowed: 2 2    the store is the first
# weaker: 0 0     a cas that doesn't swap stores the word that it found, and core 1's store is lost
# weaker: 2 0     a cas that stores an older word than it found
        la    $s0, x
        li    $s4, 1
        li    $s5, 2
        li    $s7, 5
        bne   $a0, $zero, P1
        nop

P0:     jal   meet
        nop
        move  $t1, $s7
        cas   $t1, $s0, $s4             # x: from 5 to 1; $t1 = what it had
        halt
P1:     jal   meet
        nop
        sw    $s5, 0($s0)               # x = 2
        halt

        .data 0x200
x:      .word 0, 0                      # in a line of its own
