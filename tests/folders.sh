#!/bin/sh
# Runs the built program in real folders, where other programs replace its files, disks are full, and processes are killed.
#   tests/folders.sh PROGRAM
# Prints a line for each case, and ends with 1 if one failed. What the system doesn't allow is said to be skipped.
program=$(realpath "${1:?the program}") || exit 2
home=$(mktemp -d) || exit 2
mounted=
trap '[ -n "$mounted" ] && umount "$mounted" 2>/dev/null; rm -rf "$home"' EXIT
cd "$home" || exit 2
failed=0

pass() { echo "folders: $1 ... ok"; }
fail() { echo "folders: $1 ... FAILED: $2"; failed=1; }
skip() { echo "folders: $1 ... skipped: $2"; }

# Status of a command, with what it prints in the files `out` and `err`.
run() { "$@" >out 2>err; echo $?; }

# A points file of made bytes: its name, two header words as octal bytes, how many bytes follow, and their seed.
points() {
    { printf "$2$3"; awk -v n="$4" -v x="$5" 'BEGIN { for (i = 0; i < n; i++) { x = (x * 75 + 74) % 65537; printf "%c", 33 + x % 94 } }'; } >"$1"
}

# 2,000 and 100 points of 16 bytes; the second set of each has other points.
points a '\320\007\000\000' '\020\000\000\000' 32000 1
points b '\320\007\000\000' '\020\000\000\000' 32000 2
points asked '\144\000\000\000' '\020\000\000\000' 1600 3
"$program" build a a.ann >a.line && "$program" build b b.ann >b.line || fail "two builds" "no index"
"$program" query a a.ann asked >a.answers
"$program" query a b.ann asked >b.answers
cmp -s a.ann b.ann && fail "two builds" "the indexes are alike"
cmp -s a.answers b.answers && fail "two builds" "the answers are alike"

# Whether a file is one of two.
is_one() { cmp -s "$1" "$2" || cmp -s "$1" "$3"; }

# Nothing but whole files stands in a folder: no part of one.
no_parts() { [ -z "$(find "$1" -name '*.part*' -o -name '.*part*' | head -n 1)" ]; }

case_name="an index that is replaced is read on as it was"
bad=0
for i in 1 2 3 4 5 6 7 8 9 10; do
    cp a.ann now; cp b.ann next
    "$program" query a now asked >got & query=$!
    mv next now
    wait $query || bad=$((bad + 1))
    is_one got a.answers b.answers || bad=$((bad + 1))
done
[ $bad = 0 ] && pass "$case_name" || fail "$case_name" "$bad runs"

case_name="data that is replaced is read on as it was"
bad=0
for i in 1 2 3 4 5; do
    cp a now; cp b next
    "$program" build now got.ann >out & build=$!
    mv next now
    wait $build || bad=$((bad + 1))
    is_one got.ann a.ann b.ann || bad=$((bad + 1))
done
[ $bad = 0 ] && pass "$case_name" || fail "$case_name" "$bad runs"

case_name="live writes the index of a build, and in the end its callers get what a query finds"
bad=0
for callers in 1 3 16; do
    for pool in serial rayon steal; do
        rm -f live.ann
        status=$(run "$program" live a live.ann asked --callers $callers --pool $pool)
        [ "$status" = 0 ] && cmp -s live.ann a.ann && [ "$(head -n 1 out)" = "$(cat a.line)" ] || bad=$((bad + 1))
        # The last lines are those of the query, each with the number of the last batch behind its own number.
        sed -n 's/^last \([0-9]*\) [0-9]*/\1/p' out >last
        cmp -s last a.answers || bad=$((bad + 1))
        [ "$(grep -c '^live ' out)" = 100 ] || bad=$((bad + 1))
    done
done
[ $bad = 0 ] && pass "$case_name" || fail "$case_name" "$bad runs"

case_name="live, whose callers see an early graph and later ones never goes back"
"$program" live a live.ann asked --callers 4 >out
awk '$1 == "live" { caller = $2 % 4; if ($3 < seen[caller]) bad = 1; seen[caller] = $3 } END { exit bad }' out && pass "$case_name" || fail "$case_name" "an older batch"

case_name="two builds into one name leave one of the two"
bad=0
mkdir two
for i in 1 2 3 4 5; do
    "$program" build a two/i >out & first=$!
    "$program" build b two/i >err & second=$!
    wait $first || bad=$((bad + 1))
    wait $second || bad=$((bad + 1))
    is_one two/i a.ann b.ann || bad=$((bad + 1))
done
[ "$(ls -A two)" = i ] || bad=$((bad + 1))
[ $bad = 0 ] && pass "$case_name" || fail "$case_name" "$bad runs"

case_name="a build that is killed leaves the old index or the new one"
bad=0; seen=0
mkdir killed
for i in 1 2 3 4 5 6 7 8 9 10; do
    rm -f killed/* killed/.[!.]*; cp a.ann killed/i
    "$program" build b killed/i >out & build=$!
    # Once a second file stands there, the writing has begun.
    while kill -0 $build 2>/dev/null; do
        if [ "$(ls -A killed | wc -l)" -gt 1 ]; then seen=$((seen + 1)); break; fi
    done
    kill -9 $build 2>/dev/null; wait $build 2>/dev/null
    is_one killed/i a.ann b.ann || bad=$((bad + 1))
done
[ $bad = 0 ] && pass "$case_name ($seen of 10 were killed while they wrote)" || fail "$case_name" "$bad runs"

case_name="a build that is stopped and goes on is whole"
"$program" build a stopped.ann >out & build=$!
for i in 1 2 3 4 5 6 7 8 9 10; do kill -STOP $build 2>/dev/null; kill -CONT $build 2>/dev/null; kill -WINCH $build 2>/dev/null; done
wait $build && cmp -s stopped.ann a.ann && pass "$case_name" || fail "$case_name" "another index"

case_name="lines are whole where the reader of a pipe is slow and signals come"
{ "$program" query a a.ann asked & query=$!; for i in 1 2 3 4 5; do kill -STOP $query 2>/dev/null; kill -CONT $query 2>/dev/null; done; wait $query; } | { sleep 0.2; cat >got; }
cmp -s got a.answers && pass "$case_name" || fail "$case_name" "other lines"

case_name="absolute names are absolute"
mkdir elsewhere
status=$(cd elsewhere && run "$program" build "$home/a" "$home/absolute.ann")
[ "$status" = 0 ] && cmp -s absolute.ann a.ann && [ "$(ls -A elsewhere)" = "$(printf 'err\nout')" ] && pass "$case_name" || fail "$case_name" "status $status"

case_name="a missing folder is a failed write"
status=$(run "$program" build a none/i)
[ "$status" = 7 ] && grep -qx 'annbuild: cannot write index' err && pass "$case_name" || fail "$case_name" "status $status"

case_name="the index may take the name of the data"
cp a same; status=$(run "$program" build same same)
[ "$status" = 0 ] && cmp -s same a.ann && pass "$case_name" || fail "$case_name" "status $status"

case_name="a file that the owner may not write is created all the same"
status=$(umask 277; run "$program" build a masked.ann 2>/dev/null)
cmp -s masked.ann a.ann && pass "$case_name" || fail "$case_name" "status $status"

case_name="a folder in the place of a file"
status=$(run "$program" build two x.ann)
[ "$status" = 4 ] && grep -qx 'annbuild: cannot read data' err && pass "$case_name" || fail "$case_name" "status $status"

case_name="a pipe in the place of a file is not read"
mkfifo pipe; status=$(run timeout 10 "$program" build pipe x.ann)
[ "$status" = 4 ] && pass "$case_name" || fail "$case_name" "status $status"

case_name="a full device as output leaves the whole index"
rm -f full.ann; "$program" build a full.ann >/dev/full 2>err; status=$?
[ "$status" = 7 ] && cmp -s full.ann a.ann && grep -qx 'annbuild: cannot write output' err && pass "$case_name" || fail "$case_name" "status $status"

case_name="a closed output leaves the whole index, and no line in it"
rm -f shut.ann; "$program" build a shut.ann >&- 2>err; status=$?
[ "$status" = 7 ] && cmp -s shut.ann a.ann && pass "$case_name" || fail "$case_name" "status $status"

case_name="a full device in the place of the index is a failed write"
status=$(run "$program" build a /dev/full)
[ "$status" = 7 ] && pass "$case_name" || fail "$case_name" "status $status"

case_name="a full file system leaves the old index"
mkdir small
if mount -t tmpfs -o size=128k none small 2>/dev/null; then
    mounted=$home/small
    head -c 1000 a >small/i
    status=$(run "$program" build a small/i)
    if [ "$status" = 7 ] && [ "$(ls -A small)" = i ] && head -c 1000 a | cmp -s - small/i; then pass "$case_name"; else fail "$case_name" "status $status"; fi
    umount small && mounted=
else
    skip "$case_name" "no file system can be mounted here"
fi

case_name="a header that promises much takes no memory"
{ printf '\000\000\100\000\000\001\000\000'; printf x; } >promise
status=$(ulimit -v 300000; run "$program" build promise x.ann)
[ "$status" = 5 ] && grep -qx 'annbuild: data is malformed at byte 9: short body' err && pass "$case_name" || fail "$case_name" "status $status: $(cat err)"

case_name="an index whose header promises much takes no memory"
{ printf '\120\101\116\116\001\000\000\000\001\000\000\000\000\000\020\000\020\000\000\000\100\000\000\000\000\000\000\000\001\000\000\000'; printf xxxx; } >promise.ann
status=$(ulimit -v 150000; run "$program" query a promise.ann asked)
[ "$status" = 5 ] && grep -q 'annbuild: index is malformed at byte ' err && pass "$case_name" || fail "$case_name" "status $status: $(cat err)"

case_name="sixty-four workers take memory for what they do"
points many '\240\206\001\000' '\001\000\000\000' 100000 4
points few '\002\000\000\000' '\001\000\000\000' 2 5
"$program" build many many.ann --order file --start first --degree 2 --beam 1 >out
status=$(ulimit -v 100000; run "$program" query many many.ann few --workers 64)
[ "$status" = 0 ] && pass "$case_name" || fail "$case_name" "status $status: $(cat err)"

case_name="want of memory has its status and its line"
bad=0; wants=0
for limit in 4000 6000 8000 10000 12000 16000 20000 30000 40000; do
    status=$(ulimit -v $limit; run "$program" build a want.ann)
    case $status in
        0) cmp -s want.ann a.ann || bad=$((bad + 1)) ;;
        8) wants=$((wants + 1)); grep -qx 'annbuild: out of memory' err || bad=$((bad + 1)); [ -e want.ann ] && bad=$((bad + 1)) ;;
        126|127|139) ;; # the program was not loaded
        *) bad=$((bad + 1)) ;;
    esac
    rm -f want.ann
done
[ $bad = 0 ] && pass "$case_name ($wants of 9)" || fail "$case_name" "$bad runs"

exit $failed
