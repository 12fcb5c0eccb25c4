; r0 0: this test never holds, since r2 is 0 or 8. So the empty cell is never read.
        ldd r2, [r1+32]
        and r2, 8
        xor r2, 8
        mov r0, 0
        jgt r2, 8, never
        exit
never:  ldd r0, [r10-8]
        exit
