; r0 16: a name means the unit of the instruction that follows. This jump is not taken, since r0 is not 0.
        mov r0, 1
again:  jeq r0, 0, done
        lsh r0, 4
done:   exit
