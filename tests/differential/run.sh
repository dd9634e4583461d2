#!/usr/bin/env bash
# The oracle's own tests, and the quick run of the differential test: a fixed seed, about a minute. It needs the archive that
# tools/archive.sh makes and the program target/bin/program_show, which
# tools/program_show.sh builds.
set -eu
cd "$(dirname "$0")"
root=$(cd ../.. && pwd)
export CRUDVIM_LIB="$root/target/staticlib" SHOW="$root/target/bin/program_show"
cargo test --release --quiet
cargo run --release --quiet -- quick
