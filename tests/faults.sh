#!/bin/sh
# Runs every command of the built program, with each kind of index, where its files, its outputs and the system fail it.
#   tests/faults.sh PROGRAM
# Prints a line for each way to fail, with how many runs were tried, and ends with 1 if one fell short. What the system doesn't
# allow is said to be skipped.
program=$(realpath "${1:?the program}") || exit 2
home=$(mktemp -d) || exit 2
mounted=
trap '[ -n "$mounted" ] && umount "$mounted" 2>/dev/null; rm -rf "$home"' EXIT
chmod 755 "$home"
cd "$home" || exit 2
failed=0

# The points 0, 10, 20 and 30, the queries 12 and 30.
printf '\004\000\000\000\001\000\000\000\000\012\024\036' >pts
printf '\002\000\000\000\001\000\000\000\014\036' >ask
: >empty

# A command by its name, over DATA, INDEX and QUERIES. Those that store a file store it as INDEX.
command_of() {
    case $1 in
        build-vamana) "$program" build "$2" "$3" --order file --degree 2 --cap 2 ;;
        build-hnsw) "$program" build "$2" "$3" --kind hnsw --order file --degree 1 --bits 1 --max-level 1 --seed 22 ;;
        build-nnd) "$program" build "$2" "$3" --kind nnd --degree 2 --list 2 --trees 2 --leaf 2 ;;
        live) "$program" live "$2" "$3" "$4" --order file --degree 2 --cap 2 ;;
        make) "$program" make "$3" --count 3 --dim 2 ;;
        query-*) "$program" query "$2" "$3" "$4" --search 4 --k 2 ;;
        check-*) "$program" check "$2" "$3" ;;
        trial-*) "$program" trial --kind "${1#trial-}" --count 5 --dim 2 --queries 3 ;;
    esac
}
stores='build-vamana build-hnsw build-nnd live make'
queries='query-vamana query-hnsw query-nnd'
checks='check-vamana check-hnsw check-nnd'
trials='trial-vamana trial-hnsw trial-nnd'

# What each stores and prints where nothing fails, in whole/NAME and lines/NAME. Each index is kept by its kind too.
mkdir whole lines
for name in $stores; do
    command_of "$name" pts "whole/$name" ask >"lines/$name" || { echo "faults: $name ... FAILED: nothing stored"; exit 1; }
done
for kind in vamana hnsw nnd; do cp "whole/build-$kind" "$kind.ann"; done
# The index that a command reads, or the name of the file that it stores.
index_of() {
    case $1 in
        query-*|check-*) echo "${1#*-}.ann" ;;
        *) echo "${2:-new}" ;;
    esac
}
for name in $queries $checks $trials; do
    command_of "$name" pts "$(index_of "$name")" ask >"lines/$name" || { echo "faults: $name ... FAILED: nothing printed"; exit 1; }
done

runs=0 short=
# What fell short in a run is gathered until its case is told.
fell() { short="$short $name: $1;"; }
# Ends a case: its line.
told() {
    if [ -z "$short" ]; then echo "faults: $1 ... ok ($runs runs)"; else echo "faults: $1 ... FAILED:$short"; failed=1; fi
    runs=0 short=
}
skip() { echo "faults: $1 ... skipped: $2"; }

# Runs a command by its name, with its output and error in files.
run() {
    runs=$((runs + 1))
    command_of "$@" >out 2>err
    status=$?
}
# The status, the line on the error stream, and nothing printed.
refused() {
    [ "$status" = "$1" ] || fell "status $status"
    [ "$(cat err)" = "annbuild: $2" ] || fell "line '$(cat err)'"
    [ -s out ] && fell "something printed"
    left
}
# No file is left that wasn't there.
left() { [ -z "$(find . -name 'annbuild-part-*')" ] || { fell "a part of a file is left"; find . -name 'annbuild-part-*' -exec rm {} +; }; }
# What the stored file is called in a fault.
role() { if [ "$1" = make ]; then echo data; else echo index; fi; }

# --- files that are read ---

mkdir folder
mkfifo pipe
for bad in missing none/missing folder pts/ /dev/null pipe; do
    for name in build-vamana build-hnsw build-nnd live $queries $checks; do
        rm -f new
        run "$name" $bad "$(index_of "$name")" ask; refused 4 'cannot read data'
        [ -e new ] && fell "a file is stored"
    done
    for name in $queries $checks; do run "$name" pts $bad ask; refused 4 'cannot read index'; done
    for name in live $queries; do run "$name" pts "$(index_of "$name")" $bad; refused 4 'cannot read queries'; done
    case $bad in
        missing) told "a file that isn't there" ;;
        none/missing) told "a file in a folder that isn't there" ;;
        folder) told "a folder in the place of a file that is read" ;;
        pts/) told "a file as if it were a folder" ;;
        /dev/null) told "a device in the place of a file that is read" ;;
        pipe) told "a pipe in the place of a file that is read" ;;
    esac
done
for name in build-vamana build-hnsw build-nnd live $queries $checks; do
    run "$name" empty "$(index_of "$name")" ask; refused 5 'data is malformed at byte 0: short header'
done
for name in $queries $checks; do run "$name" pts empty ask; refused 5 'index is malformed at byte 0: short header'; done
told "an empty file"

# --- the file that is stored ---

for bad in none/new folder folder/ pts/new; do
    for name in $stores; do
        run "$name" pts $bad ask; refused 7 "cannot write $(role "$name")"
    done
    case $bad in
        none/new) told "a folder that isn't there, for the new file" ;;
        folder) told "a folder in the place of the new file" ;;
        folder/) told "a folder with a slash in the place of the new file" ;;
        pts/new) told "a file in the place of the new file's folder" ;;
    esac
done
if [ -c /dev/full ]; then
    for name in $stores; do run "$name" pts /dev/full ask; refused 7 "cannot write $(role "$name")"; done
    told "a full device in the place of the new file"
else skip "a full device in the place of the new file" "there is no /dev/full"; fi

# The new file's bytes and the lines, but for those of callers.
stored() {
    [ "$status" = 0 ] || fell "status $status: $(cat err)"
    cmp -s "$1" "whole/$name" || fell "other bytes"
    if [ "$name" = live ]; then [ "$(head -n 1 out)" = "$(head -n 1 lines/live)" ] || fell "another first line"; else cmp -s out "lines/$name" || fell "other lines"; fi
    left
}
for new in ./new folder/new folder/../new "$home/new" "/$home//folder/new" new; do
    for name in $stores; do rm -f new folder/new; run "$name" pts "$new" ask; stored "$new"; done
done
rm -f new folder/new
told "names with slashes"
for name in build-vamana build-hnsw build-nnd live; do cp pts same; run "$name" same same ask; stored same; done
told "the new file is the data"
cp ask same; name=live; run live pts same same; stored same
told "the new file is the queries"
for name in $stores; do echo old >target; ln -s target link; run "$name" pts link ask; stored target; [ -L link ] || fell "the link is gone"; rm -f link target; done
told "a link in the place of the new file"
for name in $stores; do rm -f new; echo old >new; chmod 444 new; run "$name" pts new ask; stored new; done
told "a file that may not be written is replaced"
for name in $stores; do
    cat pipe >got & reader=$!
    run "$name" pts pipe ask; wait $reader; stored got
done
told "a pipe in the place of the new file gets its bytes"

# As nobody where this is root, who may write everywhere.
as_nobody=
if [ "$(id -u)" = 0 ]; then setpriv --reuid 65534 --regid 65534 --clear-groups true 2>/dev/null && as_nobody='setpriv --reuid 65534 --regid 65534 --clear-groups'; fi
bare=$program
if [ "$(id -u)" != 0 ] || [ -n "$as_nobody" ]; then
    # A copy that nobody may run.
    cp "$bare" "$home/program"; chmod 755 "$home/program"
    printf '#!/bin/sh\nexec %s %s "$@"\n' "$as_nobody" "$home/program" >lesser; chmod 755 lesser
    program=$home/lesser
    mkdir shut; echo old >shut/new; chmod 555 shut
    for name in $stores; do run "$name" pts shut/new ask; refused 7 "cannot write $(role "$name")"; [ "$(cat shut/new)" = old ] || fell "the old file changed"; done
    told "a folder that may not be written"
    cp pts hidden; cp vamana.ann hidden.ann; chmod 000 hidden hidden.ann
    for name in build-vamana build-hnsw build-nnd live $queries $checks; do run "$name" hidden "$(index_of "$name" folder/new)" ask; refused 4 'cannot read data'; done
    for name in $queries $checks; do run "$name" pts hidden.ann ask; refused 4 'cannot read index'; done
    for name in live $queries; do run "$name" pts "$(index_of "$name" folder/new)" hidden; refused 4 'cannot read queries'; done
    told "a file that may not be read"
    program=$bare
else
    skip "a folder that may not be written" "root may, and there is no setpriv"
    skip "a file that may not be read" "root may, and there is no setpriv"
fi

mkdir small
if mount -t tmpfs -o size=4k,nr_inodes=3 none small 2>/dev/null; then
    mounted=$home/small
    head -c 4096 /dev/zero >small/new
    for name in $stores; do
        run "$name" pts small/new ask; refused 7 "cannot write $(role "$name")"
        head -c 4096 /dev/zero | cmp -s - small/new || fell "the old file changed"
        [ "$(ls -A small)" = new ] || fell "another file is left"
    done
    told "a full disk"
    umount small && mounted=
else skip "a full disk" "no file system can be mounted here"; fi

# --- outputs ---

# A failed output: the status, and the whole file.
unsaid() {
    [ "$status" = 7 ] || fell "status $status"
    [ -e err ] && { [ "$(cat err)" = 'annbuild: cannot write output' ] || fell "line '$(cat err)'"; }
    case " $stores " in *" $name "*) cmp -s new "whole/$name" || fell "no whole file" ;; esac
    left
}
for name in $stores $queries $checks $trials; do
    rm -f new; runs=$((runs + 1))
    command_of "$name" pts "$(index_of "$name")" ask >&- 2>err; status=$?; unsaid
done
told "a closed output"
if [ -c /dev/full ]; then
    for name in $stores $queries $checks $trials; do
        rm -f new; runs=$((runs + 1))
        command_of "$name" pts "$(index_of "$name")" ask >/dev/full 2>err; status=$?; unsaid
    done
    told "a full device as output"
else skip "a full device as output" "there is no /dev/full"; fi
for name in $stores $queries $checks $trials; do
    rm -f new gone; runs=$((runs + 1))
    # The reader is gone before the program begins.
    { while [ ! -e gone ]; do sleep 0.01; done; command_of "$name" pts "$(index_of "$name")" ask 2>err; echo $? >status; } | { exec <&-; : >gone; }
    status=$(cat status); unsaid
done
told "an output whose reader went away"
for name in build-vamana build-hnsw build-nnd live $queries $checks; do
    rm -f err; runs=$((runs + 1))
    command_of "$name" missing "$(index_of "$name")" ask >out 2>&-; status=$?
    [ "$status" = 4 ] || fell "status $status"
    [ -s out ] && fell "something printed"
    runs=$((runs + 1))
    command_of "$name" missing "$(index_of "$name")" ask >out 2>/dev/full; status=$?
    [ "$status" = 4 ] || fell "status $status"
done
told "a closed or full error stream changes no status"

# --- limits ---

for files in 3 4 5; do
    for name in build-vamana build-hnsw build-nnd live $queries $checks; do
        rm -f new; runs=$((runs + 1)); index=$(index_of "$name")
        (ulimit -n $files; command_of "$name" pts "$index" ask) >out 2>err; status=$?
        case $status in
            0) [ "$name" = live ] || cmp -s out "lines/$name" || fell "other lines" ;;
            4) grep -q '^annbuild: cannot read ' err || fell "line '$(cat err)'"; [ -s out ] && fell "something printed" ;;
            7) [ "$(cat err)" = 'annbuild: cannot write index' ] || fell "line '$(cat err)'"; [ -e new ] && fell "a file is stored" ;;
            126|127) ;; # the program or its libraries were not opened
            *) fell "status $status" ;;
        esac
        left
    done
done
told "no further file may be opened"
for name in $stores; do
    rm -f new; echo old >new; runs=$((runs + 1))
    # What is printed goes to a pipe, since a file's size is limited.
    (trap '' XFSZ; ulimit -f 0; command_of "$name" pts new ask 2>&1; echo "status $?") | cat >out
    [ "$(tail -n 1 out)" = 'status 7' ] || fell "$(tail -n 1 out)"
    [ "$(cat new)" = old ] || fell "the old file changed"
    left
done
told "a file may not grow"
if [ -n "$as_nobody" ]; then
    printf '#!/bin/sh\nulimit -u 1 2>/dev/null || ulimit -p 1 2>/dev/null || exit 99\nexec %s "$@" --workers 64\n' "$home/program" >threads; chmod 755 threads
    printf '#!/bin/sh\nexec %s %s "$@"\n' "$as_nobody" "$home/threads" >lesser
    chmod 777 folder
    program=$home/lesser
    run build-vamana pts folder/new ask
    if [ "$status" = 99 ]; then
        runs=0; skip "no further thread may be started" "threads can't be limited"
    else
        for name in build-vamana build-hnsw build-nnd live; do rm -f folder/new; run "$name" pts folder/new ask; stored folder/new; done
        for name in $queries; do
            run "$name" pts "$(index_of "$name")" ask
            [ "$status" = 0 ] || fell "status $status"
            cmp -s out "lines/$name" || fell "other lines"
        done
        told "no further thread may be started"
    fi
    program=$bare
else skip "no further thread may be started" "only nobody's threads are limited"; fi

exit $failed
