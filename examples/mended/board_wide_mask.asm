; r0 0: the mask leaves 0 to 15, and there are sixteen cells.
        mov r1, 0
        call board_get
        mov r2, r0
        and r2, 15
        mov r3, r10
        add r3, -16
        add r3, r2
        stb [r3+0], 1
        mov r0, 0
        exit
