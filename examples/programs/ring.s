-- The head of a ring: what the host at link 2 sends goes out on link 1, and what comes back on link 0 goes to the host.
        ajw 4
loop:   ldlp 1
        mint
        ldnlp 6             -- 80000018, the input channel of link 2
        ldc 1
        in
        mint
        ldnlp 1             -- the output channel of link 1
        ldlp 1
        lb
        outbyte
        ldlp 1
        mint
        ldnlp 4             -- the input channel of link 0
        ldc 1
        in
        mint
        ldnlp 2             -- the output channel of link 2
        ldlp 1
        lb
        outbyte
        j loop
