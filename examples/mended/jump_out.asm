; r0 0: the jump leads to the exit by its name.
        mov r0, 0
        jeq r0, 0, out
out:    exit
