#!/bin/sh
# Gets what the benchmark stands on from the system's packages (Debian, Ubuntu): numpy, matplotlib, hnswlib, FAISS, a
# C++ compiler, GNU time.
apt-get update -qq && exec apt-get install -y --no-install-recommends \
    g++ libhnswlib-dev libfaiss-dev libopenblas-dev python3-numpy python3-matplotlib time
