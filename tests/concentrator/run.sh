#!/usr/bin/env bash
# Installs the library into a scratch folder, builds the C example with every warning an error, and runs it: on two
# stored streams, one with damaged frames and one with messages in short and in longer forms; on the largest table; on
# short messages without the shortener; and on the pipes, files and noise of streams.py. Runs README's programs, calls
# with null pointers under valgrind, and the measurement of the stack, and looks at what the archive needs.
set -eu
cd "$(dirname "$0")/../.."
here=tests/concentrator
work=$(mktemp -d)
trap 'rm -rf "$work"' EXIT

tools/install.sh "$work/usr" > /dev/null
archive=$work/usr/lib/libcrudvim.a
strict=(-std=c99 -Wall -Wextra -Werror -pedantic -I"$work/usr/include")

# Of the C library the archive needs these three functions and nothing else.
needs=$(nm "$archive" | awk '$1 == "U" { print $2 }' | sort -u | xargs)
[ "$needs" = "memcpy memmove memset" ] || { echo "concentrator: the archive needs $needs" >&2; exit 1; }

gcc "${strict[@]}" -O2 examples/concentrator.c "$archive" -o "$work/concentrator"
if command -v g++ > /dev/null; then
    g++ -Wall -Wextra -Werror -pedantic -fsyntax-only -x c++ include/crudvim.h
else
    echo "no g++: the header is not tried as C++"
fi

# Runs the example on a stream, and compares every octet that it writes and every line that it reports.
try_stream() {
    python3 $here/unhex.py < "$here/$1.hex" > "$work/stream"
    python3 $here/unhex.py < "$here/$2.hex" > "$work/expected"
    "$work/concentrator" "$work/table" < "$work/stream" > "$work/output" 2> "$work/report"
    cmp "$work/expected" "$work/output"
    diff "$here/$2.txt" "$work/report"
}
python3 $here/unhex.py < $here/table.hex > "$work/table"
try_stream stream expected
try_stream forms forms-expected

# The largest table, 64 records of nine octets, and one record more.
records() {
    python3 -c "import sys; sys.stdout.buffer.write(b''.join(bytes([1, 0, 6, 0, 0, t, 1, 0, 1]) for t in range($1)))"
}
records 64 > "$work/full"
"$work/concentrator" "$work/full" < /dev/null 2> /dev/null
records 65 > "$work/full"
status=0
"$work/concentrator" "$work/full" < /dev/null 2> "$work/report" || status=$?
[ "$status" = 2 ]
grep -q 'refused 2 at 576' "$work/report"

# A short message does not reach the shortener. With a stand-in that ends the program, the short messages of the last
# stream pass as they are, and the stream with longer forms ends at the stand-in.
gcc "${strict[@]}" -O2 -Wl,--wrap=crudvim_shorten \
    examples/concentrator.c $here/no_shortener.c "$archive" -o "$work/no_shortener"
"$work/no_shortener" "$work/table" < "$work/expected" > "$work/output" 2> /dev/null
cmp "$work/expected" "$work/output"
status=0
"$work/no_shortener" "$work/table" < "$work/stream" > /dev/null 2>&1 || status=$?
[ "$status" = 42 ]

# Pipes that stay open, non-blocking ones, files that fail, signals, bad arguments, and ten million octets of noise. One
# program has stand-ins for read and write, which fail now and then.
gcc "${strict[@]}" -O2 -U_FORTIFY_SOURCE -Wl,--wrap=read,--wrap=write \
    examples/concentrator.c $here/stream_faults.c "$archive" -o "$work/faulty"
python3 $here/streams.py "$work/concentrator" "$work/faulty" "$work/table"

# The programs in README.md print what it says.
python3 $here/readme.py "$work"
for program in "$work"/readme*.c; do
    gcc "${strict[@]}" "$program" "$archive" -o "$work/readme"
    "$work/readme" | diff "${program%.c}.txt" -
done

# Null pointers with length 0, for every function that takes octets, under valgrind.
gcc "${strict[@]}" -O0 -g $here/nothing.c "$archive" -o "$work/nothing"
valgrind -q --error-exitcode=1 "$work/nothing"

# The stack of each function, and its limits; those for QForm have cells of 32 KiB.
gcc "${strict[@]}" -std=gnu99 -O2 -pthread -Wl,-z,now $here/stack.c "$archive" -o "$work/stack"
"$work/stack" 6144 36864
echo "concentrator: the example and calls with nothing gave what was expected"
