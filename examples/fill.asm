# Fills r3 bytes, from r1 on, with r2. There is one at least.
        mov r4, 0               # how many are filled
next:   stxb [r1], r2
        add r1, 1
        add r4, 1
        jlt r4, r3, next
        exit
