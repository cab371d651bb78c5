#!/bin/sh
# Builds an index again from the points that it was built from, by the stamp that it carries (an index of version 2), on
# one worker in one thread, and compares the bytes:
#
#     examples/again.sh INDEX DATA [PROGRAM]
#
# The settings are read from INDEX, DATA gives the points alone. Ends with 0 where the bytes are the same.
here=$(cd "$(dirname "$0")" && pwd) || exit 1
index=$1
points=$2
program=${3:-$here/../run}
[ -r "$index" ] && [ -r "$points" ] || {
    echo "usage: again.sh INDEX DATA [PROGRAM]" >&2
    exit 2
}
again=$(mktemp -d) || exit 1
trap 'rm -rf "$again"' EXIT

# The number at a byte of the index, of 4 bytes or of 8.
word() {
    od -An -v -tu4 -j "$1" -N 4 --endian=little "$index" | tr -d ' '
}
long() {
    od -An -v -tu8 -j "$1" -N 8 --endian=little "$index" | tr -d ' '
}

[ "$(word 4)" = 2 ] || {
    echo "$index has no stamp" >&2
    exit 1
}
# check compares the stamp's digest with that of the points.
case $(word 32) in
1) type=u8 ;;
*) type=i8 ;;
esac
"$program" check "$points" "$index" --type $type >/dev/null || exit 1

set -- --type $type --format 2 --degree "$(word 20)" --seed "$(long 88)"
case $(word 36) in
1) set -- "$@" --order file ;;
2) set -- "$@" --order seeded ;;
esac
case $(word 40) in
1) set -- "$@" --start first ;;
2) set -- "$@" --start medoid ;;
esac
alpha=$(word 48)/$(word 52)
case $(word 8) in
1) set -- "$@" --kind vamana --beam "$(word 44)" --alpha "$alpha" --cap "$(word 56)" --passes "$(word 84)" ;;
2) set -- "$@" --kind hnsw --beam "$(word 44)" --cap "$(word 56)" --bits "$(word 60)" --max-level "$(word 64)" ;;
3) set -- "$@" --kind nnd --alpha "$alpha" --list "$(word 68)" --trees "$(word 72)" --leaf "$(word 76)" \
    --rounds "$(word 80)" --floor "$(long 96)" ;;
esac
echo "build $*"
"$program" build "$points" "$again/index" "$@" --pool serial --workers 1 >/dev/null || exit 1
cmp "$index" "$again/index" && echo "the same bytes"
