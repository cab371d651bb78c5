#!/bin/sh
# A tour of the program, in a folder of its own that is removed at the end: points are made, indexes of each kind are built,
# checked and asked, the same bytes come out of other pools and workers, and a damaged file is found out. What it prints
# stands in docs/TOUR.md.
here=$(cd "$(dirname "$0")" && pwd) || exit 1
run=$here/../run
folder=$(mktemp -d) || exit 1
trap 'rm -rf "$folder"' EXIT
cd "$folder" || exit 1

# Shows a command, runs it, and shows its status where it isn't 0.
try() {
    echo "\$ annbuild $*"
    "$run" "$@" 2>&1
    status=$?
    [ "$status" -eq 0 ] || echo "(status $status)"
}

# Builds an index once more, with each pool and other workers, and compares the bytes.
same_bytes() {
    index=$1
    shift
    for pool in serial rayon steal; do
        for workers in 1 2 7; do
            "$run" build points.u8bin again.ann "$@" --pool $pool --workers $workers >/dev/null || exit 1
            cmp "$index" again.ann || exit 1
        done
    done
    echo "$index comes out the same, byte for byte, of each pool with 1, 2 and 7 workers"
}

echo '# Two thousand points of 16 dimensions, and three to ask for.'
try make points.u8bin --count 2000 --dim 16 --seed 1
try make asked.u8bin --count 3 --dim 16 --seed 2

echo
echo '# An index of each kind.'
try build points.u8bin vamana.ann --degree 32 --beam 64
try build points.u8bin hnsw.ann --kind hnsw
try build points.u8bin nnd.ann --kind nnd --degree 32

echo
echo '# What they hold.'
try check points.u8bin vamana.ann
try check points.u8bin hnsw.ann
try check points.u8bin nnd.ann

echo
echo '# The five nearest points that each finds: query, then id:squared-distance. All three agree.'
try query points.u8bin vamana.ann asked.u8bin --k 5
try query points.u8bin hnsw.ann asked.u8bin --k 5
try query points.u8bin nnd.ann asked.u8bin --k 5

echo
echo '# A narrow search finds less.'
try query points.u8bin vamana.ann asked.u8bin --k 5 --search 5

echo
echo '# Nothing depends on who does the work.'
same_bytes vamana.ann --degree 32 --beam 64
same_bytes hnsw.ann --kind hnsw
same_bytes nnd.ann --kind nnd --degree 32

echo
echo '# Three callers ask while the index is being built: each gets an answer of a whole batch, and of the last one in the end.'
echo '$ annbuild live points.u8bin beside.ann asked.u8bin --degree 32 --beam 64 --k 5 --callers 3'
"$run" live points.u8bin beside.ann asked.u8bin --degree 32 --beam 64 --k 5 --callers 3 >told || exit 1
sed 's/^live \([0-9]*\) .*/live \1 (after some batch)/' told
cmp vamana.ann beside.ann && echo 'beside.ann is vamana.ann, byte for byte'

echo
echo '# A damaged file: an id of the first row becomes 4,294,967,295. One that was cut. And a setting out of its range.'
cp vamana.ann damaged.ann
printf '\377\377\377\377' | dd of=damaged.ann bs=1 seek=36 conv=notrunc 2>/dev/null
try check points.u8bin damaged.ann
head -c 1000 vamana.ann >short.ann
try check points.u8bin short.ann
try build points.u8bin other.ann --degree 129

echo
echo '# All of it in one line and in memory: twenty thousand points, an index and a hundred queries.'
try trial --count 20000 --dim 16 --degree 32 --beam 64 --queries 100 --seed 1
for pool in serial rayon steal; do
    "$run" trial --count 20000 --dim 16 --degree 32 --beam 64 --queries 100 --seed 1 --pool $pool --workers 8 >again || exit 1
    cat again
done | sort -u
