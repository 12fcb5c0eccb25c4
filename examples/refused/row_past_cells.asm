; V9 unit 7: the mask leaves 0 to 3 orders, but only two are stored.
        stw [r10-12], 1
        stw [r10-8], 0
        ldd r3, [r1+32]
        and r3, 3
        mov r1, 0
        mov r2, r10
        add r2, -12
        call send_row
        exit
