; r0 1: general 1 gets the order 1 for the label of rank 0. In `check` there is none, so r0 is 1.
        mov r1, 0
        mov r2, 1
        mov r3, 1
        call send
        exit
