#!/usr/bin/env python3
"""Writes the images of the benchmarks into a folder, and with --run PROGRAM times them.

    python3 images.py FOLDER [--run PROGRAM]

Each image is spelled as docs/IMAGES.md says, in version 2. With --run each is run by `PROGRAM exec`, five times, and
the shortest processor time counts; a line has the image's name, how many instructions its run does, the seconds, and
how many million instructions, loads and stores it does in a second.
"""
import os
import resource
import struct
import subprocess
import sys

INT, LONG, POINTER = 5, 7, 11
ADD, MUL, AND, SHR, LT = 0, 2, 5, 9, 0


def row(op, kind=0, line=0, a=0, b=0, c=0, imm=0):
    return struct.pack("<BBHIIIIq", op, kind, 0, line, a, b, c, imm)


def tick():
    return row(1)


def put(a, imm):
    return row(2, a=a, imm=imm)


def move(a, b):
    return row(3, a=a, b=b)


def binary(kind, operator, a, b, c):
    return row(5, kind, a=a, b=b, c=c, imm=operator)


def less(kind, a, b, c):
    return row(6, kind, a=a, b=b, c=c, imm=LT)


def jump_zero(b, to):
    return row(8, b=b, imm=to)


def jump_nonzero(b, to):
    return row(9, b=b, imm=to)


def call(a, b, function):
    return row(10, a=a, b=b, imm=function)


def give(b):
    return row(11, b=b)


def static(a, number):
    return row(12, a=a, imm=number)


def load(kind, a, b, c):
    return row(15, kind, 1, a, b, c)


def store(kind, a, b, c):
    return row(16, kind, 1, a, b, c)


def slide(a, b, c, size):
    return row(17, a=a, b=b, c=c, imm=size)


def malloc(a, b):
    return row(25, a=a, b=b)


def image(functions, statics=()):
    """Functions are (parameters, words, code), the first of which is called; statics are sizes."""
    out = b"OBLV" + struct.pack("<II", 2, 1) + struct.pack("<I", len(statics))
    for size in statics:
        out += struct.pack("<QQ", size, 0)
    out += struct.pack("<II", 0, len(functions))
    at = 0
    for params, words, code in functions:
        out += struct.pack("<IIIIQI", at, params, words, 0, (words + 1) // 2 * 16, 0)
        at += len(code)
    out += struct.pack("<II", 0, at)
    return out + b"".join(b"".join(code) for _, _, code in functions) + struct.pack("<I", 0)


def counted(times, before, body, statics=()):
    """A loop that is gone round so many times, with what it does besides: the image and its instructions."""
    # words: 2 the count, 3 how many, 4 the number 1, 5 the test, 6 the number 0
    head = [put(2, 0), put(3, times), put(4, 1), put(6, 0)] + before
    turn = [tick()] + body + [binary(INT, ADD, 2, 2, 4), less(INT, 5, 2, 3)]
    code = head + turn + [jump_nonzero(5, len(head)), give(6)]
    return image([(0, 32, code)], statics), len(head) + times * (len(turn) + 1) + 1


def counting():
    image_is, instructions = counted(50_000_000, [], [])
    return image_is, instructions, 0


def one_array():
    # 7 the array, 8 the mask, 9 the index, 10 the displacement, 11 the number there
    before = [static(7, 1), put(8, 4095)]
    body = [binary(INT, AND, 9, 2, 8), slide(10, 6, 9, 4), load(INT, 11, 7, 10), binary(INT, ADD, 11, 11, 4), store(INT, 11, 7, 10)]
    image_is, instructions = counted(10_000_000, before, body, [16384])
    return image_is, instructions, 20_000_000


def two_arrays():
    # 12 the other array: what the first one holds is stored into it
    before = [static(7, 1), static(12, 2), put(8, 4095)]
    body = [binary(INT, AND, 9, 2, 8), slide(10, 6, 9, 4), load(INT, 11, 7, 10), binary(INT, ADD, 11, 11, 4), store(INT, 11, 12, 10)]
    image_is, instructions = counted(10_000_000, before, body, [16384, 16384])
    return image_is, instructions, 20_000_000


def heap_objects():
    # the static array of 10,000 pointers is filled first; then a number of each object that chance names is added to
    head = [put(2, 0), put(3, 10_000), put(4, 1), put(6, 0), static(7, 1), put(8, 40), put(13, 6364136223846793005), put(14, 1442695040888963407), put(15, 33), put(16, 10_000), put(17, 12345)]
    fill = [slide(10, 6, 2, 8), malloc(11, 8), store(POINTER, 11, 7, 10), binary(INT, ADD, 2, 2, 4), less(INT, 5, 2, 3)]
    fill.append(jump_nonzero(5, len(head)))
    times = 5_000_000
    between = [put(2, 0), put(3, times)]
    at = len(head) + len(fill) + len(between)
    # 17 the chance, 18 its high bits, 19 one of 10,000, 20 the object
    turn = [tick(), binary(LONG + 1, MUL, 17, 17, 13), binary(LONG + 1, ADD, 17, 17, 14), binary(LONG + 1, SHR, 18, 17, 15), binary(LONG + 1, 4, 19, 18, 16), slide(10, 6, 19, 8), load(POINTER, 20, 7, 10), load(INT, 21, 20, 6), binary(INT, ADD, 21, 21, 4), store(INT, 21, 20, 6), binary(INT, ADD, 2, 2, 4), less(INT, 5, 2, 3), jump_nonzero(5, at)]
    code = head + fill + between + turn + [give(6)]
    return image([(0, 32, code)], [80_000]), len(head) + 10_000 * len(fill) + 2 + times * len(turn) + 1, 10_000 + 3 * times


def recursion():
    # main calls f(32); f(n) is n where n < 2, else f(n - 1) + f(n - 2)
    main = [put(2, 32), call(2, 2, 1), put(2, 0), give(2)]
    at = len(main)
    f = [put(3, 2), less(INT, 4, 2, 3), jump_zero(4, at + 4), give(2), put(5, -1), binary(INT, ADD, 6, 2, 5), call(7, 6, 1), binary(INT, ADD, 6, 6, 5), call(8, 6, 1), binary(INT, ADD, 7, 7, 8), give(7)]
    does = [4, 4]
    for _ in range(31):
        does.append(10 + does[-1] + does[-2])
    return image([(0, 3, main), (1, 9, f)]), len(main) + does[32], 0


def long_code():
    code = [put(2, 0), put(3, 1)] + [binary(INT, ADD, 2, 2, 3)] * (1_048_576 - 4) + [put(2, 0), give(2)]
    return image([(0, 4, code)]), len(code), 0


IMAGES = {"counting": counting, "one_array": one_array, "two_arrays": two_arrays, "heap_objects": heap_objects, "recursion": recursion, "long_code": long_code}


def spent():
    """The processor seconds of the processes that were run so far."""
    used = resource.getrusage(resource.RUSAGE_CHILDREN)
    return used.ru_utime + used.ru_stime


def main():
    folder = sys.argv[1]
    os.makedirs(folder, exist_ok=True)
    program = sys.argv[3] if len(sys.argv) > 3 and sys.argv[2] == "--run" else None
    for name, make in IMAGES.items():
        bytes_are, instructions, accesses = make()
        path = os.path.join(folder, name + ".img")
        with open(path, "wb") as file:
            file.write(bytes_are)
        if program is None:
            continue
        best = None
        for _ in range(5):
            begun = spent()
            ran = subprocess.run([program, "exec", path, "--steps", "1000000000"], capture_output=True)
            took = spent() - begun
            assert ran.returncode == 0, (name, ran)
            best = took if best is None else min(best, took)
        print(f"{name:14} {instructions:>12,} instructions {best:7.2f} s {instructions / best / 1e6:7.1f} M/s {accesses / best / 1e6:6.1f} M accesses/s", flush=True)


main()
