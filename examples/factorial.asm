# The factorial of r1, by a function that calls itself.
        call local factorial
        exit
factorial:
        mov r0, 1
        jle r1, 1, done
        mov r6, r1              # kept by the call
        sub r1, 1
        call local factorial
        mul r0, r6
done:   exit
