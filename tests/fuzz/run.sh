#!/bin/bash
# Fuzzes the library for a number of seconds, from the inputs that the differential test generates.
#
# usage: CRUDVIM_LIB=DIRECTORY run.sh SECONDS
#
# CRUDVIM_LIB is the directory of the archive. FUZZ_LIBS may name further libraries that the archive needs, for example "-lm".
# What is found stays in work/; a later run goes on from it.
set -eu
if [ $# -ne 1 ] || [ -z "${CRUDVIM_LIB:-}" ]; then
    echo "usage: CRUDVIM_LIB=DIRECTORY $0 SECONDS" >&2
    exit 2
fi
seconds=$1
archive=crudvim
CRUDVIM_LIB=$(cd "$CRUDVIM_LIB" && pwd)
export CRUDVIM_LIB
cd "$(dirname "$0")"
rm -rf work/seeds
mkdir -p work/seeds work/found work/failures

has_libfuzzer() {
    command -v clang > /dev/null || return 1
    echo 'int LLVMFuzzerTestOneInput(const char *d, unsigned long n) { return d && n ? 0 : 0; }' > work/try.c
    clang -fsanitize=fuzzer,address work/try.c -o work/try 2> /dev/null
}

if ! has_libfuzzer; then
    echo "no clang with libFuzzer: installing it"
    apt-get update -q > /dev/null
    apt-get install -qy clang > /dev/null
    has_libfuzzer || apt-get install -qy "libclang-rt-$(clang -dumpversion | cut -d. -f1)-dev" > /dev/null
    has_libfuzzer || { echo "clang has no libFuzzer" >&2; exit 1; }
fi

# shellcheck disable=SC2086
clang -std=c11 -g -O1 -Wall -Wextra -fsanitize=fuzzer,address -I ../../include harness.c ../../bench/plain.c "$CRUDVIM_LIB/lib$archive.a" \
    ${FUZZ_LIBS:-} -o work/harness
(cd ../differential && cargo run --release --quiet -- corpus ../fuzz/work/seeds)

status=0
work/harness -max_total_time="$seconds" -max_len=70000 -timeout=30 -rss_limit_mb=1500 -print_final_stats=1 \
    -artifact_prefix=work/failures/ work/found work/seeds > work/log 2>&1 || status=$?
grep -E '^(stat::number_of_executed_units|stat::new_units_added|SUMMARY)|not so:' work/log || true
echo "executions: $(sed -n 's/^stat::number_of_executed_units: *//p' work/log)"
if [ $status -ne 0 ]; then
    tail -40 work/log
    echo "FAILED: the input is in tests/fuzz/work/failures" >&2
fi
exit $status
