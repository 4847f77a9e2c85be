#!/usr/bin/env bash
# The generated script of a number, written anew in Python: what the tests of image_make and the verb `make` are compared with.
# Needs python3.
# usage: bench/make_script.sh NUMBER        (prints the script)
#        bench/make_script.sh --sums NUMBER..      (prints each number with its script's length and CRC-32)
set -eu

exec python3 - "$@" <<'PYTHON'
import sys, zlib

GUID = "8be4df61-93ca-11d2-aa0d-00e098032b8c"
CALLS = 4000


def name(number, index):
    return "V%02d" % ((index + number) % 64)


def line(number, index):
    turn = index % 4
    if turn < 2:
        data = "%02x" % ((index + number) % 256) * (1 + index % 200)
        return "0 set %s %s 0x00000007 %s\n" % (GUID, name(number, index), data)
    if turn == 2:
        return "0 get %s %s 256\n" % (GUID, name(number, index - 1))
    return "0 next %s - 64\n" % GUID


def script(number):
    return "".join(line(number, index) for index in range(CALLS))


if sys.argv[1] == "--sums":
    for word in sys.argv[2:]:
        text = script(int(word)).encode()
        print("%s %d 0x%08x" % (word, len(text), zlib.crc32(text)))
else:
    sys.stdout.write(script(int(sys.argv[1])))
PYTHON
