#!/bin/sh
# Gets numpy from the system's packages (Debian, Ubuntu).
exec apt-get install -y --no-install-recommends python3-numpy
