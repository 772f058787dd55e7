-- Sends on link 2 what comes on link 0 or link 1, a byte from whichever has one.
        ajw 8
loop:   alt
        mint
        ldnlp 4             -- the input channel of link 0
        ldc 1               -- its guard
        enbc
        mint
        ldnlp 5             -- the input channel of link 1
        ldc 1
        enbc
        altwt               -- until one of them has a byte
        mint
        ldnlp 4
        ldc 1
        ldc first - chosen  -- where to go if it is link 0
        disc
        mint
        ldnlp 5
        ldc 1
        ldc second - chosen -- where to go if it is link 1
        disc
        altend
chosen:
first:  ldlp 1
        mint
        ldnlp 4
        ldc 1
        in
        j pass
second: ldlp 1
        mint
        ldnlp 5
        ldc 1
        in
pass:   mint
        ldnlp 2             -- 80000008, the output channel of link 2
        ldlp 1
        lb
        outbyte
        j loop
