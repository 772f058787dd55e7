        local word
        ajw 4
again:  ldlp word
        mint
        ldnlp 4
        ldc 4
        in
        mint
        ldl word
        ldc 10
        prod
        outword
        j again
