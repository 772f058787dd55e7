        local first second
        def one = 1         -- a word of the routine: what A was at the call
        def other = 2       -- and B
        ajw 8
again:  ldlp first
        mint
        ldnlp 4
        ldc 8
        in
        ldl second
        ldl first
        call divisor
        stl first
        mint
        ldl first
        outword
        j again
divisor:
        ldl other
        cj found
        ldl one
        ldl other
        rem
        ldl other
        stl one
        stl other
found:  ldl one
        ret
