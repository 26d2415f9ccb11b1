#!/bin/sh
# Holds the program's answers to the reference's, on the examples and on random requests.
#
#     tests/run.sh [--hex] PROGRAM [N]     --hex: the answers' bytes too, by PROGRAM --hex FILE; N: how many random requests
#     tests/run.sh --write                 writes anew what is kept: examples/*.expected, and data/ and stdout of the program's crate
#
# Ends with 0 if all are the same.
set -u
here=$(cd "$(dirname "$0")" && pwd)
crate=$here/../crates/vanadiummole
made=$(mktemp -d)
trap 'rm -r "$made"' EXIT

requests() { python3 "$here/requests.py" "$@"; }

hex=
write=
case ${1-} in
--hex) hex=yes; shift ;;
--write) write=yes; shift ;;
esac
if [ -z "$write" ] && [ $# -lt 1 ]; then
    sed -n '2,7s/^# \{0,1\}//p' "$0" >&2
    exit 2
fi
program=${1-}
count=${2-4000}
failed=0

# same WHAT EXPECTED GOT: are two files of lines the same, else where they first differ
same() {
    cmp -s "$2" "$3" && return
    failed=1
    echo "$1: not the same (< expected, > got; the number is the request's)"
    diff "$2" "$3" | head -n 8
}

# run WHAT EXPECTED OPTION..: the program's lines are these
run() {
    what=$1 expected=$2
    shift 2
    if ! "$program" "$@" >"$made/got" 2>"$made/errors"; then
        failed=1
        echo "$what: the program failed"
        head -n 3 "$made/errors"
    fi
    same "$what" "$expected" "$made/got"
}

# ask NAME LINES: the program on NAME.bin
ask() {
    run "$1" "$2" "$made/$1.bin"
    if [ -n "$hex" ]; then
        requests answers --hex "$made/$1.bin" >"$made/hex" || failed=1
        run "$1 --hex" "$made/hex" --hex "$made/$1.bin"
    fi
    echo "$1: $(wc -l <"$2") requests asked"
}

python3 "$here/test_reference.py" || failed=1
for name in first refusals large; do
    text=$here/examples/$name.txt
    requests check "$text" || failed=1
    requests write "$text" "$made/$name.bin" || exit 1
    requests answers "$made/$name.bin" >"$made/$name.lines" || exit 1
    if [ -n "$write" ]; then
        cp "$made/$name.lines" "$here/examples/$name.expected"
        continue
    fi
    same "$name.expected" "$here/examples/$name.expected" "$made/$name.lines"
    ask "$name" "$made/$name.lines"
done
# the program's crate keeps two of them, which the gate runs one after the other
if [ -n "$write" ]; then
    cp "$made/first.bin" "$made/refusals.bin" "$crate/data/"
    cat "$made/first.lines" "$made/refusals.lines" >"$crate/stdout"
    exit $failed
fi
for name in first refusals; do
    cmp "$made/$name.bin" "$crate/data/$name.bin" || failed=1
done
python3 "$here/random_requests.py" "$count" "$made/random.bin" >"$made/random.lines" || exit 1
ask random "$made/random.lines"
[ $failed = 0 ] && echo "all as expected"
exit $failed
