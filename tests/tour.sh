#!/bin/sh
# Compares what the tour prints with docs/TOUR.md.
here=$(cd "$(dirname "$0")/.." && pwd) || exit 1
told=$(mktemp) || exit 1
seen=$(mktemp) || exit 1
trap 'rm -f "$told" "$seen"' EXIT
awk '/^```text$/ { inside = 1; next } /^```$/ { inside = 0 } inside' "$here/docs/TOUR.md" >"$told"
"$here/examples/tour.sh" >"$seen" || { echo "tour: it ended with a fault"; cat "$seen"; exit 1; }
diff "$told" "$seen" || { echo "tour: docs/TOUR.md tells other lines"; exit 1; }
echo "tour: docs/TOUR.md tells what is printed"
