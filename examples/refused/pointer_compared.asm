; V7 unit 1: pointers cannot be compared.
        mov r0, 0
        jeq r1, 0, out
        mov r0, 1
out:    exit
