; V13 unit 1: the program ends with a pointer in r0.
        mov r0, r1
        exit
