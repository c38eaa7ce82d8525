# The sum of the numbers from 1 to r1.
        mov r0, 0
        jeq r1, 0, done
next:   add r0, r1
        sub r1, 1
        jne r1, 0, next
done:   exit
