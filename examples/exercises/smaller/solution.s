        local first second
        ajw 4
again:  ldlp first
        mint
        ldnlp 4
        ldc 8
        in
        ldl first
        ldl second
        gt
        cj send
        ldl second
        stl first
send:   mint
        ldl first
        outword
        j again
