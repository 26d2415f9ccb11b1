#!/bin/sh
# The twins: pairs of places that share six lines or more, in the same words or in the same shape (Rust's ending, so that the tool reads them).
out=$(mktemp -d)
(cd "$1" && find crates -path '*/src/*' -name '*.rt' -not -path '*/out/*') | while read -r f; do
    mkdir -p "$out/$(dirname "$f")"; cp "$1/$f" "$out/${f%.rt}.rs"
done
cd "$out" && duplicates --most 60 --min-lines "${2:-6}"
