; V11 unit 1: there is no helper 1000.
        mov r1, 0
        call 1000
        exit
