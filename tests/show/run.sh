#!/bin/sh
# Runs the built program `show` on each input that make_inputs.py writes and compares what it prints with what is expected. Build the
# program first, by `tools/program_show.sh` at the root.
here=$(dirname "$0")
program=${1:-$here/../../target/bin/program_show}
if [ ! -x "$program" ]; then
    echo "no program $program" >&2
    exit 2
fi
folder=$(mktemp -d) || exit 2
trap 'rm -rf "$folder"' EXIT
python3 "$here/make_inputs.py" "$folder" || exit 2
passed=0
failed=0
for input in "$folder"/*.in; do
    name=$(basename "$input" .in)
    if "$program" < "$input" > "$folder/got" && cmp -s "$folder/got" "$folder/$name.out"; then
        passed=$((passed + 1))
    else
        failed=$((failed + 1))
        echo "$name differs: expected, then printed"
        head -c 400 "$folder/$name.out"
        head -c 400 "$folder/got"
    fi
done
echo "$passed as expected, $failed not"
[ "$failed" -eq 0 ] && [ "$passed" -gt 0 ]
