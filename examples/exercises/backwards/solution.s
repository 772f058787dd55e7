        local count room
        ajw 4
again:  ldlp count
        mint
        ldnlp 4
        ldc 1
        in
        ldlp count
        lb
        stl count
        ldlp room
        mint
        ldnlp 4
        ldl count
        in
next:   ldl count
        cj again
        ldl count
        adc -1
        stl count
        mint
        ldl count
        ldlp room
        bsub
        lb
        outbyte
        j next
