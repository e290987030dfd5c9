# What litmus/run puts behind each program: two subroutines. They use $t8, $t9, $k0, $k1 and, as `jal` does, $ra.
#
# meet: waits until every core has called it, and makes the core's first pause.
        .text
meet:   la    $t8, frame.met
meet.join: lw $t9, 0($t8)
        addiu $k0, $t9, 1
        move  $k1, $t9
        cas   $k1, $t8, $k0
        bne   $k1, $t9, meet.join
        nop
meet.wait: lw $t9, 0($t8)
        bne   $t9, $a1, meet.wait
        sll   $k0, $a0, 4               # delay slot: four words of delays for each core
        la    $t8, frame.delays
        addu  $k0, $k0, $t8
        move  $k1, $zero

# pause: waits for as many rounds as the core's next delay says; behind its fourth comes its first again.
pause:  addu  $t8, $k0, $k1
        lw    $t9, 0($t8)
        addiu $k1, $k1, 4
        andi  $k1, $k1, 12
pause.wait: bgtz $t9, pause.wait
        addiu $t9, $t9, -1              # delay slot
        jr    $ra
        nop

# The delays are the words that are put behind this; where there are none, as memory is 0 there, none is long.
        .data
frame.met: .word 0
frame.delays:
