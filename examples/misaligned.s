# Loads from an address that is no multiple of 4: the C row says misaligned, and there is no A row.
        lw    $t0, 2($zero)
        halt
