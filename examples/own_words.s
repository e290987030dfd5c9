# With --cores=4 each core stores its number in a word of its own: four sw rows, one for each core, in the same cycle.
        sll   $t0, $a0, 2               # $a0 is the core's number, $a1 the number of cores
        sw    $a0, 0x100($t0)
        halt
