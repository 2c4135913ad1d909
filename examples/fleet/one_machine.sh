#!/bin/sh
# Runs every file of routes of a folder, so many at once on this machine.
#
#     one_machine.sh PROCESSES PROGRAM LIMITS ALMANAC OUTAGES REPORTS BATCHES
#
# The status is 0 where every batch was run, and otherwise 123, after all of them. Run it again to go on.
[ $# -eq 7 ] || { sed -n '2,6s/^# \{0,1\}//p' -- "$0" >&2; exit 64; }
here=$(dirname -- "$0")
processes=$1
shift
find "$6" -name '*.routes' -print0 | sort -z |
    xargs -0 -n 1 -P "$processes" "$here/run_batch.py" "$1" "$2" "$3" "$4" "$5"
