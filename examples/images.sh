#!/usr/bin/env bash
# Makes an image without variables, puts one record into it by hand, as firmware does, runs a script on it, and lists what it keeps.
# usage: examples/images.sh [IMAGE]      (default: a new file vars.fd in this folder)
set -eu
top="$(cd "$(dirname "${BASH_SOURCE[0]}")/.." && pwd)"
image="${1:-vars.fd}"

"$top/varsvc" format "$image"
"$top/varsvc" list "$image"

# BootOrder of the global namespace, attributes 7, the bytes 01 00, in the state ADDED; the first record stands at 100.
record='aa553f00 07000000 0000000000000000 00000000000000000000000000000000 00000000 14000000 02000000
        61dfe48bca93d211aa0d00e098032b8c 42006f006f0074004f0072006400650072000000 0100'
for byte in $(echo "$record" | tr -d ' \n' | fold -w 2); do printf "\\x$byte"; done |
    dd of="$image" bs=1 seek=100 conv=notrunc status=none
"$top/varsvc" list "$image"

# The script sets a volatile variable alone, so what is listed stays.
"$top/varsvc" run "$image" <"$top/examples/first.script"
"$top/varsvc" list "$image"
"$top/varsvc" check "$image"
