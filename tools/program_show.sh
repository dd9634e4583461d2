#!/usr/bin/env bash
# Proves the program show, runs it on its sample, and puts it at target/bin/program_show.
set -euo pipefail
cd "$(dirname "$0")/.."
(cd crates/program_show && rt run < stdin 2> /dev/null | cmp - stdout)
mkdir -p target/bin
cp crates/program_show/out/program_show target/bin/
