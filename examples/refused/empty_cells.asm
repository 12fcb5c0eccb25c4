; V9 unit 1: one byte is stored, but eight are read.
        stb [r10-8], 1
        ldd r0, [r10-8]
        exit
