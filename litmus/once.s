# once, a word that is made ready once: the first of three cores that swaps the state from 0 to 1 stores 42 and counts, and
# sets the state to 2; all wait for that, and load the word.
# cores: 3
# outcome: 0:$t1 1:$t1 2:$t1 count@0x210
# allowed: 42 42 42 1    all see the word, and it was made ready once
# weaker: 0 42 42 1      a core sees the state before the word: stores, or loads, are made out of order
# weaker: 42 42 42 2     two cores were the first: the load and the store of a cas are apart
        la    $s0, state
        la    $s1, word
        la    $s2, count
        li    $s4, 1
        li    $s5, 2
        li    $t0, 42

        jal   meet
        nop
        move  $t2, $zero
        cas   $t2, $s0, $s4
        bne   $t2, $zero, wait
        nop
        sw    $t0, 0($s1)
        lw    $t3, 0($s2)
        jal   pause
        nop
        addiu $t3, $t3, 1
        sw    $t3, 0($s2)
        sw    $s5, 0($s0)               # ready
wait:   lw    $t2, 0($s0)
        bne   $t2, $s5, wait
        nop
        lw    $t1, 0($s1)
        halt

        .data 0x200
state:  .word 0, 0                      # each in a line of its own
word:   .word 0, 0
count:  .word 0, 0
