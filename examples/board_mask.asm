; r0 0: a word of the board chooses one of the eight cells below r10. The mask leaves 0 to 7 of it.
        mov r1, 0
        call board_get
        mov r2, r0
        and r2, 7
        mov r3, r10
        add r3, -8
        add r3, r2
        stb [r3+0], 1
        mov r0, 0
        exit
