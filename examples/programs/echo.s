-- Sends back each byte that comes on link 0.
        ajw 4
loop:   ldlp 1              -- a byte of the workspace
        mint
        ldnlp 4             -- 80000010, the input channel of link 0
        ldc 1
        in
        mint                -- the output channel of link 0
        ldlp 1
        lb
        outbyte
        j loop
