        local first second
        ajw 4
again:  ldlp first
        mint
        ldnlp 4
        ldc 8
        in
        ldl second
        ldl first
        gt
        cj send
        ldl second
        stl first
send:   mint
        ldl first
        outword
        j again
