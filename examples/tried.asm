; r0 0: general 3 gets what was taken, and general 1 gets 7 for the label of rank 1. Word 5 of the board grows by 1.
        mov r1, 3
        call honest
        mov r1, 1
        mov r2, 1
        mov r3, 7
        call send
        mov r1, 5
        mov r2, 1
        call board_add
        exit
