; V10 unit 0: the context can only be read.
        stb [r1+0], 1
        mov r0, 0
        exit
