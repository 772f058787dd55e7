        ajw 4
        mint
        ldc 42
        outword
        stopp
