#!/bin/sh
# Builds stamped indexes with the built program, and each again by examples/again.sh from its stamp and the points alone.
#   tests/again.sh PROGRAM
# Prints a line for each case, and ends with 1 if one failed.
program=$(realpath "${1:?the program}") || exit 2
again=$(realpath "$(dirname "$0")/../examples/again.sh") || exit 2
home=$(mktemp -d) || exit 2
trap 'rm -rf "$home"' EXIT
cd "$home" || exit 2
failed=0

pass() { echo "again: $1 ... ok"; }
fail() { echo "again: $1 ... FAILED"; failed=1; }

"$program" make points --count 500 --dim 8 --seed 3 >/dev/null || exit 1
"$program" make others --count 500 --dim 8 --seed 4 >/dev/null || exit 1

# Builds with these options, and again from the stamp.
rebuilt() {
    name=$1
    shift
    if "$program" build points index --format 2 "$@" >/dev/null && "$again" index points "$program" >told &&
        [ "$(tail -n 1 told)" = "the same bytes" ]; then pass "$name"; else fail "$name"; fi
}

rebuilt "vamana with defaults"
rebuilt "vamana with settings of its own" --seed 18446744073709551615 --order file --start first --degree 7 --beam 33 --alpha 30/20 --cap 19
rebuilt "vamana in two passes, of signed bytes" --passes 2 --type i8 --degree 9 --seed 1 --pool rayon --workers 3
rebuilt "hnsw" --kind hnsw --degree 5 --beam 40 --bits 2 --max-level 3 --seed 8 --cap 100
rebuilt "hnsw of signed bytes, with defaults" --kind hnsw --type i8
rebuilt "nnd" --kind nnd --degree 12 --list 11 --trees 3 --leaf 20 --rounds 4 --floor 5 --alpha 1/1 --start first --seed 2
rebuilt "nnd of signed bytes, with defaults" --kind nnd --type i8

# A stamp tells the points from others of the same shape, and signed bytes from unsigned ones.
refused() {
    name=$1 line=$2
    shift 2
    "$program" "$@" >out 2>err
    if [ $? = 6 ] && [ ! -s out ] && grep -q "$line" err; then pass "$name"; else fail "$name"; fi
}
"$program" build points index --format 2 --kind hnsw >/dev/null || exit 1
refused "other points" "^annbuild: digest differs: [0-9]* in index, [0-9]* in data$" check others index
refused "other points, asked" "^annbuild: digest differs: [0-9]* in index, [0-9]* in data$" query others index points
refused "signed bytes" "^annbuild: element differs: 1 in index, 2 in data$" check points index --type i8
"$again" index others "$program" >out 2>&1 && fail "again of other points" || pass "again of other points"
"$program" build points plain --kind hnsw >/dev/null || exit 1
"$again" plain points "$program" >out 2>&1 && fail "again without a stamp" || pass "again without a stamp"
"$program" check others plain >/dev/null && pass "without a stamp other points are not told" || fail "without a stamp other points are not told"

# A stamped index is the plain one with another version and the stamp between header and layers.
"$program" live points beside points --format 2 --degree 8 >/dev/null || exit 1
"$program" build points alone --format 2 --degree 8 >/dev/null || exit 1
cmp -s beside alone && pass "live writes the index of build" || fail "live writes the index of build"
"$program" build points plain --degree 8 >/dev/null || exit 1
tail -c +137 alone >layers && tail -c +33 plain | cmp -s - layers && pass "the layers are the same" || fail "the layers are the same"
[ "$(tail -c +105 alone | head -c 32 | od -An -v -tx1 | tr -d ' \n')" = "$(sha256sum points | cut -d ' ' -f 1)" ] &&
    pass "the digest is that of the points' file" || fail "the digest is that of the points' file"
exit $failed
