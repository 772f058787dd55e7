        local letter
        def first = 'a'
        def behind = 'z' + 1
        ajw 4
        ldc first
        stl letter
again:  mint
        ldl letter
        outbyte
        ldl letter
        adc 1
        stl letter
        ldl letter
        eqc behind
        cj again
        stopp
