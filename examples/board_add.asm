; r0 1: a counter in word 0 of the board. Each call returns the old word, so the second one returns 1.
        mov r1, 0
        mov r2, 1
        call board_add
        mov r1, 0
        mov r2, 1
        call board_add
        exit
