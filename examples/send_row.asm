; r0 0: the receivers of the label of rank 0 get 1, 0 and 1, and r0 is their number. In `check` there are none.
        stw [r10-12], 1
        stw [r10-8], 0
        stw [r10-4], 1
        mov r1, 0
        mov r2, r10
        add r2, -12
        mov r3, 3
        call send_row
        exit
