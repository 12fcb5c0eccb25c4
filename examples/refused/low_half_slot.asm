; V12 unit 4: the test uses only the low 32 bits, so the upper half may be anything.
        ldd r2, [r1+32]
        mov r0, 0
        jgt.w r2, 63, out
        mov r1, r2
        call board_get
out:    exit
