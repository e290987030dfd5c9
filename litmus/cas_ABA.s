# cas_ABA, a word that goes from 0 to 1 and back beside a cas of core 0 from 0 to 2.
# cores: 2
# outcome: 0:$t1 x@0x200
# allowed: 0 0    the cas is before both stores
# allowed: 0 2    the cas is behind both, and can't tell that there was a 1
# allowed: 1 0    the cas is between them, and stores nothing
# weaker: 1 2     a cas stores although it found another word than it expects
        la    $s0, x
        li    $s4, 1
        li    $s5, 2
        bne   $a0, $zero, P1
        nop

P0:     jal   meet
        nop
        move  $t1, $zero
        cas   $t1, $s0, $s5             # x: from 0 to 2; $t1 = what it had
        halt
P1:     jal   meet
        nop
        sw    $s4, 0($s0)               # x = 1
        jal   pause
        nop
        sw    $zero, 0($s0)             # x = 0
        halt

        .data 0x200
x:      .word 0, 0                      # in a line of its own
