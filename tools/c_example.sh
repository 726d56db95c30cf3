#!/bin/bash
# Proves the firmware's library, builds c/example.c against it, runs that and compares what it prints with c/example.out.
set -o pipefail
cd "$(dirname "$0")/.." || exit 1
library=target/staticlib/libfirmware.a
program=target/c_example

mkdir -p target
tools/staticlib.sh > target/c_example.log 2>&1 || { tail -5 target/c_example.log; exit 1; }
gcc -std=c11 -Wall -Wextra -Werror -O2 -Ic c/example.c "$library" -o "$program" || exit 1
"$program" | diff c/example.out - || { echo "c/example.c: not as wanted"; exit 1; }
echo "c/example.c prints what is wanted"
