-- Passes a counter to the node at link 0 and takes it back, until it is 10. Then it goes to the host at link 1.
        local counter
        def rounds = 10
        ajw 4
        ldc 0
        stl counter
loop:   mint                -- the output channel of link 0
        ldl counter
        outword
        ldlp counter
        mint
        ldnlp 4             -- the input channel of link 0
        ldc 4
        in
        ldl counter
        eqc rounds
        cj loop             -- not yet
        mint
        ldnlp 1             -- 80000004, the output channel of link 1
        ldl counter
        outword
        stopp
