; r0 3: a copy of r10 may be moved.
        mov r2, r10
        sub r2, 16
        std [r2+0], 3
        ldd r0, [r10-16]
        exit
