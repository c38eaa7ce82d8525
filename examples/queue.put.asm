# Puts numbers into a queue: r1 is its address, r2 the first number, r3 how many.
again:  ldxdw r4, [r1]          # how many were put in
        ldxdw r5, [r1+8]        # how many were taken out
        mov r0, r4
        sub r0, r5
        jge r0, 4, again        # full
        mov r0, r4
        and r0, 3
        lsh r0, 3
        add r0, r1
        stxdw [r0+16], r2       # first the value,
        mov r5, 1
        aadd [r1], r5           # then the count that shows it
        add r2, 1
        sub r3, 1
        jne r3, 0, again
        exit
