#!/bin/sh
# Runs every file of routes of a folder by GNU parallel, on the machines of a list, each of which sees the same files under the
# same paths.
#
#     many_machines.sh MACHINES PROGRAM LIMITS ALMANAC OUTAGES REPORTS BATCHES
#
# MACHINES is a list for parallel's --sshloginfile: a line for each machine, with `N/` before its name for N processes at once.
# A batch whose machine is lost is tried again on another, three times in all. Run it again to go on.
[ $# -eq 7 ] || { sed -n '2,8s/^# \{0,1\}//p' -- "$0" >&2; exit 64; }
here=$(cd -- "$(dirname -- "$0")" && pwd)
find "$7" -name '*.routes' | sort |
    parallel -q --sshloginfile "$1" --workdir "$(pwd)" --retries 3 "$here/run_batch.py" "$2" "$3" "$4" "$5" "$6" {}
