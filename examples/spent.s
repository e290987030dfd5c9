# Never stops: the C row says spent after 20000 cycles, and register 8 ($t0) counts half of them, 00002710.
loop:   b     loop
        addiu $t0, $t0, 1               # delay slot
