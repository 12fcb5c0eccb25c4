; V8 unit 5: the mask leaves 0 to 15, but from -8 on there are only eight cells.
        ldd r2, [r1+32]
        and r2, 15
        mov r3, r10
        add r3, -8
        add r3, r2
        stb [r3+0], 1
        mov r0, 0
        exit
