# Runs past the end of the code: the C row says offcode, at dpc 00000008, behind the nop that fills up the code.
        addiu $t0, $zero, 1
