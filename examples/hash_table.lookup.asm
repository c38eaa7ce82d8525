# Looks a key up in a hash table: r1 is the table's address, r2 the key; r0 is the value, or 0.
        lddw r4, 0x9e3779b97f4a7c15
        mul r4, r2
        rsh r4, 61
        mov r5, 8
look:   mov r6, r4
        lsh r6, 4
        add r6, r1
        ldxdw r0, [r6]
        jeq r0, r2, found
        jeq r0, 0, none
        add r4, 1
        and r4, 7
        sub r5, 1
        jne r5, 0, look
none:   mov r0, 0
        exit
found:  ldxdw r0, [r6+8]
        exit
