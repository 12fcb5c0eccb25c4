; V7 unit 1: a number is not an address.
        mov r2, 0
        ldb r0, [r2+0]
        exit
