-- Sends these words on link 0, all at once.
        ajw 4
        ldc words - here
        ldpi                -- C: where they are
here:   mint                -- B: the output channel of link 0
        ldc end - words     -- A: how many bytes
        out
        stopp
words:  word 0
end:
