; V3 unit 0: a jump into the second half of an instruction of two units.
        ja +1
        lddw r0, 1
        exit
