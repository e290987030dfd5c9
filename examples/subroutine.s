# Calls a subroutine twice: register 16 ($s0) is 7 doubled twice, 0000001c. Register 31 ($ra) is where the second call went on.
        li    $a0, 7
        jal   double
        nop                             # delay slot
        jal   double
        move  $a0, $v0                  # delay slot: the argument of the second call
        move  $s0, $v0
        halt

double: jr    $ra
        addu  $v0, $a0, $a0             # delay slot: the result
