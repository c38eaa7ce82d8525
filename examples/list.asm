# The sum of a linked list. A node is an object: its value, and the address of the next node or 0.
        mov r6, 0               # the sum
next:   ldxdw r2, [r1]          # the node's value
        add r6, r2
        ldxdw r1, [r1+8]        # the next node
        call 4                  # done with this one: it may leave
        jne r1, 0, next
        mov r0, r6
        exit
