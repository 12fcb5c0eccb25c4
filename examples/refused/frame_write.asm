; V6 unit 0: a program must not change r10.
        sub r10, 16
        mov r0, 0
        exit
