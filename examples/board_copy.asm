; r0 0: the last four words of the board are copied to the 32 cells from -32 on.
        mov r1, 60
        mov r2, r10
        add r2, -32
        mov r3, 4
        call board_copy
        ldd r0, [r10-32]
        exit
