        def channel = 1     -- words of the first workspace: the channel to the second process,
        def word = 2        -- and what came by the link
        def taken = 1       -- words of the second: what came by the channel,
        def first = 2       -- and the first workspace
        def apart = 1      -- how many words lie between the two
        ajw 24
        mint
        stl channel         -- no process waits there
        ldlp 0
        ldlp -apart
        stnl first
        ldc second - here
        ldlp -apart
        startp
here:   ldlp word
        mint
        ldnlp 4
        ldc 4
        in
        ldlp channel
        ldl word
        outword
        j here
second: ldlp taken
        ldl first
        ldnlp channel
        ldc 4
        in
        mint
        ldl taken
        ldl taken
        sum
        outword
        j second
