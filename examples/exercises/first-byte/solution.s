        ajw 4
        mint
        ldc 42
        outbyte
        stopp
