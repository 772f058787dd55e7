-- Sends a greeting to the host at link 0, and stops.
        ajw 4               -- the workspace goes up: what is saved below it must not meet the text
        ldc text - here     -- the text, from the place behind ldpi
        ldpi
here:   mint                -- 80000000, the output channel of link 0
        ldc end - text
        out
        stopp
text:   byte "hello*n"
end:
