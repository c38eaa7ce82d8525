# The greatest common divisor of r1 and r2.
        mov r0, r1
        jeq r2, 0, test
next:   mov r3, r2
        mod r0, r2
        mov r2, r0
        mov r0, r3
test:   jne r2, 0, next
        exit
