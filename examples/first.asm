        mov r0, 7
        exit
