#!/bin/sh
# mos65-dap.sh [PROGRAM]: runs the debug adapter. Without the word the program is the one in MOS65, or
# the one on the path. What the client sends is copied to a file. Its length tells the adapter during a
# run that the client has sent something, as pause; the file goes when the client has ended. Without tee
# or a folder for the file the adapter runs alone: a run stops after so many steps then.
program=${1:-${MOS65:-mos65}}
if command -v tee >/dev/null && room=$(mktemp -d 2>/dev/null) && mkfifo "$room/sent"; then
    exec 3<&0
    { tee -- "$room/seen" <&3 >"$room/sent"; rm -rf -- "$room"; } &
    "$program" dap --seen "$room/seen" <"$room/sent" 3<&-
    status=$?
    rm -rf -- "$room"
    exit $status
fi
exec "$program" dap
