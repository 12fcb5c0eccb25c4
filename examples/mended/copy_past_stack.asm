; r0 0: four words are copied to 32 cells.
        mov r1, 60
        mov r2, r10
        add r2, -32
        mov r3, 4
        call board_copy
        ldd r0, [r10-32]
        exit
