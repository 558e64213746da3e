mov64 r0, 0
jlt64 r2, 16, +1
st32 [r10-8], 0
exit
