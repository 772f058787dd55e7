        local count room
        ajw 4
again:  ldlp count
        mint
        ldnlp 4
        ldc 1
        in
        ldlp count
        lb
        stl count
        ldlp room
        mint
        ldnlp 4
        ldl count
        in
        mint
        ldlp room
        stl 0
        ldl 0
        mint
        ldl count
        out
        j again
