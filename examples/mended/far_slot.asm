; r0 0: 63 is the last word of the board.
        mov r1, 63
        call board_get
        exit
