; r0 0: general 1 gets what was taken for each label, and general 2 gets 0. In `check` there are no labels.
        mov r1, 1
        call honest
        mov r6, r0              ; a call leaves r6 to r9 as they are
        mov r1, 2
        mov r2, 0
        call sway
        add r0, r6
        exit
