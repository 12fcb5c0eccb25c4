; r0 6: eight bytes from -8 on end at 0.
        std [r10-8], 6
        ldd r0, [r10-8]
        exit
