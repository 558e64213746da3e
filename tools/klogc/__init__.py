"""klogc: from a transform in C to a program that klog's verifier accepts, tested.

The parts, each with one purpose:
    compiler    finds clang and runs it; what BPF lacks becomes calls of runtime.h
    program     the object's code as blocks, own functions followed into each call;  loops  among the blocks;  liveness  what they read
    values      what is known of a number;  terms  sums of unknown numbers;  halves  numbers that are the low bits of others;
                bounds  of sums and the record's lengths;  state  at one place of the code;  meeting  where two ways meet
    lowering    runs the blocks with what is known, a copy of a loop's blocks for each round, and writes code
                (writer, numbers, jumps, memory, calls, library are its layers; code has the instructions that it writes)
    registers   gives the variables of that code registers or places on the stack (places, choice, ways are its layers), without what
                nothing reads (trim)
    layout      makes the image, and leaves out the tests that the verifier knows never to be taken
    lower       runs these until they agree on the stack and on the rounds of loops
    meaning     what the object's code does on a record, by an interpreter that knows nothing of the parts above
"""
import os
import sys

# The machine and the verifier in Python (second_machine), and batches (second_broker), are tools of the developers.
DEV = os.path.join(os.path.dirname(os.path.dirname(os.path.abspath(__file__))), "dev")
for folder in (os.path.dirname(DEV), DEV):
    if folder not in sys.path:
        sys.path.append(folder)
