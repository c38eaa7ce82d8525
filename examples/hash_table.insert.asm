# Puts a key into a hash table: r1 is the table's address, r2 the key, r3 the value; r0 is 1, or 0 where it is full.
        lddw r4, 0x9e3779b97f4a7c15
        mul r4, r2
        rsh r4, 61              # one of 8 entries
        mov r5, 8               # so many are looked at
look:   mov r6, r4
        lsh r6, 4
        add r6, r1              # the entry: key, value
        ldxdw r0, [r6]
        jeq r0, r2, put
        jeq r0, 0, put          # free
        add r4, 1
        and r4, 7
        sub r5, 1
        jne r5, 0, look
        mov r0, 0               # full
        exit
put:    stxdw [r6], r2
        stxdw [r6+8], r3
        mov r0, 1
        exit
