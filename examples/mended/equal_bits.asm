; r0 0: the cells that one path reads are written first.
        std [r10-8], 0
        ldd r2, [r1+32]
        or r2, 1
        ldd r3, [r1+40]
        and r3, 2
        mov r0, 0
        jeq r2, r3, equal
        exit
equal:  ldd r0, [r10-8]
        exit
