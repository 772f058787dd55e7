        local word
        ajw 4
again:  ldlp word
        mint
        ldnlp 4
        ldc 4
        in
        ldl word
        not
        adc 1
        stl word
        mint
        ldl word
        outword
        j again
