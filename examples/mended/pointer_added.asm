; r0 1: the number is added to a copy of the pointer.
        mov r2, 16
        mov r3, r1
        add r3, r2
        ldw r0, [r3+0]
        exit
