# Adds 10 three times: register 9 ($t1) is 0000001e.
        li    $t0, 3
loop:   addiu $t1, $t1, 10
        addiu $t0, $t0, -1
        bgtz  $t0, loop
        nop                             # delay slot
        halt
