; r0 3: the larger of r6 and r7, compared as signed numbers.
        mov r6, -5
        mov r7, 3
        mov r0, r6
        jsgt r6, r7, done
        mov r0, r7
done:   exit
