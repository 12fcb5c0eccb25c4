; V9 unit 7: r2 is odd and r3 is even, but a test of equality uses only their bounds.
        ldd r2, [r1+32]
        or r2, 1
        ldd r3, [r1+40]
        and r3, 2
        mov r0, 0
        jeq r2, r3, equal
        exit
equal:  ldd r0, [r10-8]
        exit
