#!/bin/sh
# Runs the tests of python/annbuild.py where numpy is there, and says "skipped" where it isn't.
here=$(cd "$(dirname "$0")/.." && pwd) || exit 1
for python in python3 /usr/bin/python3; do
    if "$python" -c 'import numpy' 2>/dev/null; then
        exec "$python" -B -m unittest discover "$here/python"
    fi
done
echo "python: skipped, numpy isn't there (python/setup.sh gets it)"
