-- Code of more than 255 bytes, which a boot can't take: it is poked, and a small boot jumps to it.
        ajw 4
        j over
        space 300
over:   mint
        ldc 42
        outword
        stopp
