; r0 1: eight bytes are stored, and eight are read.
        std [r10-8], 1
        ldd r0, [r10-8]
        exit
