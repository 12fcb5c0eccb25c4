; r0 0: the mask leaves 0 or 1, and two orders are stored.
        stw [r10-12], 1
        stw [r10-8], 0
        ldd r3, [r1+32]
        and r3, 1
        mov r1, 0
        mov r2, r10
        add r2, -12
        call send_row
        exit
