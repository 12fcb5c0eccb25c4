; r0 1: a pointer is never 0, so no comparison is needed.
        mov r0, 1
        exit
