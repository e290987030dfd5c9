# With --cores=2 core 0 stores a message and then raises a flag; core 1 waits for the flag and loads the message: its
# register 10 ($t2) is 0000002a, and its last lw row stands behind both sw rows of core 0.
        la    $t0, message
        la    $t1, flag
        bne   $a0, $zero, receive
        nop                             # delay slot: li is two words, and only the first would stand there
        li    $t2, 42
        sw    $t2, 0($t0)
        li    $t3, 1
        sw    $t3, 0($t1)
        halt
receive: lw   $t3, 0($t1)
        beq   $t3, $zero, receive
        nop
        lw    $t2, 0($t0)
        halt

        .data 0x100
message: .word 0
flag:   .word 0
