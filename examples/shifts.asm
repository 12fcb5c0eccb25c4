; r0 4: a 64-bit shift uses the low 6 bits of its count, and a 32-bit shift uses the low 5.
        mov r0, 1
        lsh r0, 65
        lsh.w r0, 33
        exit
