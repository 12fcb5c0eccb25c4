; r0 0: r2 is 5, so no value takes the path to the load, and the verifier does not look at it.
        mov r0, 0
        mov r2, 5
        jlt r2, 10, out
        ldd r0, [r10-8]
out:    exit
