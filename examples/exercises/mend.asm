        mov r1, 0               ; word 0 of the board
        call board_get
        mov r1, r0              ; the receiver whom an accomplice wrote there
        mov r2, 1               ; attack
        call sway
        exit
