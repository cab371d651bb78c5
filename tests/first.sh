#!/bin/sh
# Runs `./run first` and compares what it prints with tests/first.expected; answers beside the build are of any batch.
# Says "skipped" where `rt try`, by which it compiles the program, gives no answer at all.
here=$(cd "$(dirname "$0")/.." && pwd) || exit 1
told=$(mktemp) || exit 1
trap 'rm -f "$told"' EXIT
"$here/run" first 2>/dev/null | sed 's/^live \([0-9]*\) .*/live \1 (after some batch)/' >"$told"
if [ ! -s "$told" ]; then
    echo 'first look: skipped, the program could not be compiled or run without proofs here'
    exit 0
fi
diff "$here/tests/first.expected" "$told" && echo 'first look: ok'
