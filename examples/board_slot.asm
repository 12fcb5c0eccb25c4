; r0 0: a number of the context chooses a word of the board, if it is at most 63.
        ldd r2, [r1+32]
        mov r0, 0
        jgt r2, 63, out
        mov r1, r2
        call board_get
out:    exit
