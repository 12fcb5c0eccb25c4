; r0 9: word 0 becomes 5. Then it becomes 9, because it is 5.
        mov r1, 0
        mov r2, 5
        call board_swap
        mov r1, 0
        mov r2, 5
        mov r3, 9
        call board_cas
        mov r1, 0
        call board_get
        exit
