; Writes the number of the traitor into word 0 of the board, sends everyone the word that was there, and forgets it.
        ldw r2, [r1+8]
        mov r1, 0
        call board_swap
        mov r6, r0
        mov r1, 0
        mov r2, r6
        call sway
        mov r1, 1
        mov r2, r6
        call sway
        mov r1, 2
        mov r2, r6
        call sway
        mov r1, 3
        mov r2, r6
        call sway
        mov r1, 4
        mov r2, r6
        call sway
        mov r1, 5
        mov r2, r6
        call sway
        mov r1, 6
        mov r2, r6
        call sway
        mov r1, 7
        mov r2, r6
        call sway
        mov r1, 8
        mov r2, r6
        call sway
        mov r6, 0
        exit
