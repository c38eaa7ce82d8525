# Takes numbers out of a queue and emits each: r1 is its address, r2 how many.
        mov r6, r1
again:  ldxdw r4, [r6]          # how many were put in
        ldxdw r5, [r6+8]        # how many were taken out
        jeq r4, r5, again       # empty
        and r5, 3
        lsh r5, 3
        add r5, r6
        ldxdw r1, [r5+16]       # first the value,
        mov r5, 1
        aadd [r6+8], r5         # then the place is free
        call 3
        sub r2, 1
        jne r2, 0, again
        exit
