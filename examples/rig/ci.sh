#!/bin/sh
# Tests this folder in CI. MOS65 is a clone of mos65; what it installs is kept in CACHE for each commit.
set -eu
kept=$CACHE/$(git -C "$MOS65" rev-parse HEAD)
if [ ! -e "$kept/done" ]; then
    "$MOS65/mos65" --install "$kept/bin"
    "$MOS65/mos65" --library "$kept"
    touch "$kept/done"
fi
export PATH="$kept/bin:$PATH" MOS65_LIBRARY="$kept/lib/libmos65.so" PYTHONPATH="$MOS65/python"
exec make -C "$(dirname "$0")" test
