-- A stage of a pipeline: takes bytes from link 0, adds one to each, and sends them on link 1.
        ajw 4
loop:   ldlp 1
        mint
        ldnlp 4             -- the input channel of link 0
        ldc 1
        in
        mint
        ldnlp 1             -- the output channel of link 1
        ldlp 1
        lb
        adc 1
        outbyte
        j loop
