# mailbox, a box for one message: core 0 puts 1, 2 and 3 into it, each when it is empty; core 1 takes three messages, each
# when it is full, and puts them together as the digits of $t1.
# cores: 2
# outcome: 1:$t1
# allowed: 123    each message once, in order
# weaker: 113     the second message is loaded before it is there: stores, or loads, are made out of order
# weaker: 122     the same of the third
        la    $s0, box
        la    $s1, full
        li    $s4, 1
        li    $s5, 3                    # the last message
        bne   $a0, $zero, P1
        move  $t0, $zero                # delay slot: messages by now

P0:     jal   meet
        nop
put:    lw    $t2, 0($s1)
        bne   $t2, $zero, put
        nop
        addiu $t0, $t0, 1
        sw    $t0, 0($s0)               # the message
        sw    $s4, 0($s1)               # the box is full
        jal   pause
        nop
        bne   $t0, $s5, put
        nop
        halt
P1:     jal   meet
        nop
take:   lw    $t2, 0($s1)
        beq   $t2, $zero, take
        nop
        lw    $t3, 0($s0)               # the message
        sw    $zero, 0($s1)             # the box is empty
        sll   $t4, $t1, 3
        sll   $t5, $t1, 1
        addu  $t1, $t4, $t5             # ten times as much
        addu  $t1, $t1, $t3
        addiu $t0, $t0, 1
        jal   pause
        nop
        bne   $t0, $s5, take
        nop
        halt

        .data 0x200
box:    .word 0, 0                      # each in a line of its own
full:   .word 0, 0
