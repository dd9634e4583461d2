#!/usr/bin/env bash
# Times the C library against plain.c: builds what is missing, compares all answers, prints the table, and writes results.txt and
# results.svg beside this script. With the word `counts` it also counts instructions, which takes minutes, and writes counts.txt.
# ARCHIVE names another archive to time; CC another compiler for plain.c and the bench.
set -euo pipefail
cd "$(dirname "$0")/.."

archive=${ARCHIVE:-target/staticlib/libcrudvim.a}
cc=${CC:-gcc}
build=target/bench
if [ ! -f "$archive" ]; then
    tools/archive.sh
fi
mkdir -p "$build"
# Each side is compiled on its own, so that no call is folded into the loop that times it.
"$cc" -std=c11 -O3 -Wall -Wextra -c bench/plain.c -o "$build/plain.o"
"$cc" -std=c11 -O3 -Wall -Wextra -c bench/bench.c -o "$build/bench.o"
"$cc" "$build/bench.o" "$build/plain.o" "$archive" -o "$build/bench"

{
    echo "compiler of plain.c: $("$cc" --version | head -n 1), -O3"
    echo "processor: $(sed -n 's/^model name[[:space:]]*: //p' /proc/cpuinfo | head -n 1), $(nproc) cores"
    echo
    "$build/bench"
} | tee "$build/results.txt"
# Only a run that came to its end replaces the results.
cp "$build/results.txt" bench/results.txt
python3 bench/plot.py bench/results.txt bench/results.svg

if [ "${1:-}" = counts ]; then
    python3 bench/counts.py "$build/bench" | tee "$build/counts.txt"
    cp "$build/counts.txt" bench/counts.txt
fi
