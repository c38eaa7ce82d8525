# The Internet checksum (RFC 1071) of an object. r1 is its address; the length comes from helper 1.
        mov r6, r1              # where it reads
        rsh r1, 32              # the object's number
        call 1                  # its length
        mov r7, r0
        mov r0, 0               # the sum
pair:   jlt r7, 2, odd
        ldxh r2, [r6]
        be16 r2                 # the first byte is the high one
        add r0, r2
        add r6, 2
        sub r7, 2
        ja pair
odd:    jeq r7, 0, fold
        ldxb r2, [r6]           # an odd byte counts as a high one
        lsh r2, 8
        add r0, r2
fold:   mov r2, r0
        rsh r2, 16
        and r0, 65535
        add r0, r2
        jgt r0, 65535, fold
        xor r0, 65535
        exit
