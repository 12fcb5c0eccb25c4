; V7 unit 1: the sum of a number and a pointer would be in the number's register.
        mov r2, 16
        add r2, r1
        ldw r0, [r2+0]
        exit
