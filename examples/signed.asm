# 7 by r1, unsigned: nothing is divided by zero.
        mov r0, 7
        div r0, r1
        exit
