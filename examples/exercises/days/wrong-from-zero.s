        local month
        ajw 4
again:  ldlp month
        mint
        ldnlp 4
        ldc 1
        in
        mint
        ldlp month
        lb
        ldc days - here
        ldpi
here:   bsub
        lb
        outbyte
        j again
days:   byte 31, 28, 31, 30, 31, 30, 31, 31, 30, 31, 30, 31
