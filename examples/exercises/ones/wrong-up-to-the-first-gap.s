        local word count
        ajw 4
again:  ldlp word
        mint
        ldnlp 4
        ldc 4
        in
        ldc 0
        stl count
next:   ldl word
        ldc 1
        and
        cj send
        ldl word
        ldc 1
        and
        ldl count
        sum
        stl count
        ldl word
        ldc 1
        shr
        stl word
        j next
send:   mint
        ldl count
        outword
        j again
