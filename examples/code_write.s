# Stores into the code: the C row says codewrite, and the code stays as it was.
        sw    $t0, 0($zero)
        halt
