; r0 0: five words from 59 on end with word 63.
        mov r1, 59
        mov r2, r10
        add r2, -40
        mov r3, 5
        call board_copy
        ldd r0, [r10-40]
        exit
