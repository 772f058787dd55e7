        local word
        ajw 4
again:  ldlp word
        mint
        ldnlp 4
        ldc 4
        in
        ldc 0
        ldl word
        gt
        cj send
        ldl word
        not
        adc 1
        stl word
send:   mint
        ldl word
        outword
        j again
