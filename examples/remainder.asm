; r0 5: the 32-bit remainder of a 64-bit number by 0 is its low half.
lddw r0, 0x100000005
mod.w r0, 0
exit
