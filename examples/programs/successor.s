-- Sends back each word that comes on link 0, plus one.
        ajw 4
loop:   ldlp 1
        mint
        ldnlp 4             -- the input channel of link 0
        ldc 4
        in
        mint                -- its output channel
        ldl 1
        adc 1
        outword
        j loop
