; r0 0: general 2 gets the order 1 for each label, and r0 is their number. In `check` there are none.
        mov r1, 2
        mov r2, 1
        call sway
        exit
