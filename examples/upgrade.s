# With --cores=2 both cores load a word, so both share its line (S); then core 0 stores to it. Its copy is right, but not the
# only one: an upgrade, a transaction with im 1 that brings no words and after which cache 3 has none. Had core 1 not loaded
# the word, cache 1 would hold the line exclusive (E) and store with no transaction: see --cores=1.
        la    $t0, shared
        lw    $t1, 0($t0)
        bne   $a0, $zero, end
        addiu $t2, $zero, 8
pause:  addiu $t2, $t2, -1
        bne   $t2, $zero, pause
        nop
        sw    $a1, 0($t0)
end:    halt

        .data 0x100
shared: .word 0
