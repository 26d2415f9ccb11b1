#!/bin/sh
# How fast the proved program parses and compares, beside plain ones in Rust that do the same in the same way: how much each does in a second, and
# how many times as long the proved one takes.
#
#     bench/run.sh PROGRAM [TIMES [RUNS]]     sixteen messages TIMES (64) over, the searches an eighth as often; RUNS (5) runs of each
set -eu
if [ $# -lt 1 ]; then
    sed -n '2,5s/^# \{0,1\}//p' "$0" >&2
    exit 2
fi
here=$(cd "$(dirname "$0")" && pwd)
program=$1
times=${2-64}
runs=${3-5}
made=$(mktemp -d)
trap 'rm -r "$made"' EXIT
for name in plain plain_search; do
    rustc -O -C codegen-units=1 --edition 2021 -o "$made/$name" "$here/$name.rs"
done
echo "parsing:"
bits=$(python3 "$here/make.py" "$times" "$made/loop.bin")
python3 "$here/measure.py" "${bits}e-6" "million bits" "$runs" "$made/loop.bin" "$made/plain" "$program"
echo "exhaustive search:"
requests=$(python3 "$here/make.py" --search $(((times + 7) / 8)) "$made/search.bin")
python3 "$here/measure.py" "$requests" "searches" "$runs" "$made/search.bin" "$made/plain_search" "$program"
