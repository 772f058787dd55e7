-- Three processes in one node. The first sends 6 to the second over a channel in memory, and the second squares it. When
-- both have ended, and the process that started them too, the square goes to the host at link 0.
        def next = 0        -- words of the first workspace: where the last of the three goes on,
        def missing = 1     -- how many end there, right behind it,
        def channel = 3     -- the channel between the two others,
        def square = 4      -- and what comes of it
        def all = 1         -- words of the others: the first workspace,
        def taken = 2       -- and what came over the channel
        def apart = 10      -- how many words lie between two workspaces
        ajw 40              -- room for those of the two, 10 and 20 words below
        mint
        stl channel         -- no process waits there
        ldc joined - one
        ldpi
one:    stl next
        ldc 3
        stl missing
        ldlp 0
        ldlp -apart
        stnl all
        ldc first - two
        ldlp -apart
        startp
two:    ldlp 0
        ldlp -apart - apart
        stnl all
        ldc second - three
        ldlp -apart - apart
        startp
three:  ldlp next
        endp
first:  ldl all
        ldnlp channel
        ldc 6
        outword
        ldl all
        endp
second: ldlp taken
        ldl all
        ldnlp channel
        ldc 4
        in
        ldl taken
        ldl taken
        mul
        ldl all
        stnl square
        ldl all
        endp
joined: mint
        ldl square
        outword
        stopp
