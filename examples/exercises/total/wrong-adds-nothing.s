        local word last
        ajw 8
        ldc 0
        stl last
again:  ldlp word
        mint
        ldnlp 5
        ldc 4
        in
        ldl word
        cj done
        ldl word
        stl last
        j again
done:   mint
        ldl last
        outword
        stopp
