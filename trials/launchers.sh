#!/bin/sh
# Tries the launchers with a made `rt` in place of the toolchain's: what they say, which status they end with, and that they run no
# program but one that was just built. Run from anywhere: sh trials/launchers.sh. It ends with the number of trials that passed.
top=$(cd -- "$(dirname -- "$0")/.." && pwd)
room=$(mktemp -d) || exit 1
chmod 755 "$room"
trap 'rm -rf -- "$room"' EXIT
passed=0
failed=0

# A checkout of launchers and of the lists and folders that they read, without a proof or a program.
checkout() {
    rm -rf -- "$room/house" "$room/made" "$room/temporary"
    mkdir -p "$room/house/crates" "$room/made" "$room/temporary"
    chmod 777 "$room/temporary"
    cp "$top/launch.sh" "$top/raim" "$top/raim_vert" "$top/raim_fleet" "$top/raim_chart" "$top/notice" "$top/crates.txt" "$top/HANDLES" "$room/house/"
    sed 's/#.*//; s/:.*//; /^ *$/d' "$top/crates.txt" | while read -r crate; do
        mkdir -p "$room/house/crates/$crate/src" "$room/house/crates/$crate/must-fail" "$room/house/crates/$crate/out"
        echo "// $crate" >"$room/house/crates/$crate/src/lib.rt"
        echo "an edit" >"$room/house/crates/$crate/must-fail/wrong.edit"
        echo "made before" >"$room/house/crates/$crate/out/made"
    done
}

# A made `rt`: `ci` says three crates and does as $1 says: in the end it makes a program that prints its words.
make_rt() {
    cat >"$room/made/rt" <<END
#!/bin/sh
echo "\$*" >>"$room/calls"
find . | sort >"$room/given"
[ "\$*" = ci ] || exit 1
printf '== whole_numbers\nsaid of it\nrt: whole_numbers proved\nrt: fractions is kept: an earlier run proved it\nrt: raim_model proved\n'
case $1 in
fails) echo "rt: the third is not proved"; exit 1 ;;
sleeps) sleep 5 ;;
builds_nothing) exit 0 ;;
takes_long) touch "$room/house/crates/raim_run/src/lib.rt" ;;
esac
for crate in crates/*_cli; do
    name=\$(basename "\$crate")
    mkdir -p "\$crate/out"
    printf '#!/bin/sh\necho "ran \$*"\n' >"\$crate/out/\$name"
    chmod 755 "\$crate/out/\$name"
done
END
    chmod 755 "$room/made/rt"
    rm -f "$room/calls"
}

# Runs a launcher with the made rt first in PATH, and keeps its status, output and note.
start() {
    TMPDIR=$room/temporary PATH=$room/made:$PATH "$@" >"$room/output" 2>"$room/note"
    status=$?
}

# One trial: a name, and a condition that has to hold.
holds() {
    what=$1
    shift
    if "$@"; then
        passed=$((passed + 1))
    else
        failed=$((failed + 1))
        echo "FAILED: $what (status $status)" >&2
        cat "$room/output" "$room/note" >&2
    fi
}

says() { grep -q -- "$1" "$room/note"; }
given() { grep -qx -- "$1" "$room/given"; }
not_given() { ! grep -q -- "$1" "$room/given"; }
printed() { [ "$(cat "$room/output")" = "$1" ]; }
ended() { [ "$status" -eq "$1" ]; }
is_empty() { [ -z "$(ls -A "$1")" ]; }

for name in raim raim_vert raim_fleet raim_chart notice; do
    checkout
    make_rt builds
    start "$room/house/$name" a 'b c'
    holds "$name is built and run" ended 0
    holds "$name gets its words" printed 'ran a b c'
    holds "$name says how far it is" says "^$name: proving 2 of [0-9]*: fractions\$"
    holds "$name leaves no temporary file" is_empty "$room/temporary"
    holds "$name leaves its program alone" [ "$(ls "$room/house/crates/${name}_cli/out" | tr '\n' ' ')" = "made ${name}_cli " ]
    holds "$name is built of its crates" given "./crates/raim_base/src/lib.rt"
    holds "$name is built of no other program" not_given "_cli_"
    holds "$name is built under the handles" given './HANDLES'
    holds "$name is built without wrong bodies" not_given must-fail
    holds "$name is built from nothing made before" not_given '/out$'
    rm "$room/calls"
    start "$room/house/$name" again
    holds "$name is not built again" [ ! -e "$room/calls" ]
    holds "$name runs again" printed 'ran again'
    ln -s "$room/house/$name" "$room/temporary/by_link"
    start "$room/temporary/by_link" linked
    holds "$name is run by a link" printed 'ran linked'
    cp "$room/house/$name" "$room/temporary/copied_away"
    start "$room/temporary/copied_away" a
    holds "$name copied away ends with 70" ended 70
    holds "$name copied away says so" says 'launch.sh is not beside'
done

checkout
make_rt builds
start "$room/house/raim"
sleep 1
touch "$room/house/crates/notice_book/src/lib.rt"
rm "$room/calls"
start "$room/house/raim"
holds "a crate that raim does not stand on builds nothing" [ ! -e "$room/calls" ]
touch "$room/house/crates/whole_numbers/src/lib.rt"
start "$room/house/raim"
holds "a changed source builds again" [ -e "$room/calls" ]
sleep 1
touch "$room/house/crates/whole_numbers/src/lib.rt"
make_rt fails
start "$room/house/raim"
holds "after a failed build nothing runs" printed ''
holds "a failed build ends with 70" ended 70
holds "a failed build says why" says 'the third is not proved'
holds "a failed build leaves no temporary file" is_empty "$room/temporary"
make_rt builds_nothing
start "$room/house/raim"
holds "a build without a program ends with 70" ended 70

checkout
make_rt takes_long
start "$room/house/raim"
rm "$room/calls"
start "$room/house/raim"
holds "what changes during a build is built again" [ -e "$room/calls" ]

checkout
rm -f "$room/made/rt"
mkdir "$room/tools"
for tool in sh awk sed find dirname readlink wc tr cat rm mktemp getconf sleep touch; do
    ln -s "$(command -v "$tool")" "$room/tools/$tool"
done
PATH=$room/tools "$room/house/raim" >"$room/output" 2>"$room/note"
status=$?
holds "without rt the status is 70" ended 70
holds "without rt that is said" says "rt is not in PATH"

checkout
make_rt builds
start "$room/house/raim"
sleep 1
touch "$room/house/crates/raim_run/src/lib.rt"
chmod 555 "$room/house/crates/raim_cli/out"
if [ "$(id -u)" -eq 0 ]; then
    chmod -R a+rX "$room"
    start setpriv --reuid=65534 --regid=65534 --clear-groups "$room/house/raim" stale
else
    start "$room/house/raim" stale
fi
holds "a program that cannot be removed is not run" printed ''
holds "a program that cannot be removed ends with 70" ended 70
holds "a program that cannot be removed is named" says 'cannot be removed'
chmod 755 "$room/house/crates/raim_cli/out"

for signal in INT TERM HUP; do
    checkout
    make_rt sleeps
    # (a process in the background ignores INT, but for one that python starts)
    TMPDIR=$room/temporary PATH=$room/made:$PATH python3 -c '
import os, signal, subprocess, sys, time
run = subprocess.Popen([sys.argv[1]], stdout=subprocess.DEVNULL, stderr=subprocess.DEVNULL)
time.sleep(1.5)
run.send_signal(getattr(signal, "SIG" + sys.argv[2]))
sys.exit(run.wait())' "$room/house/raim" "$signal"
    status=$?
    : >"$room/output"
    : >"$room/note"
    holds "$signal leaves no temporary file" is_empty "$room/temporary"
    holds "$signal ends the build" [ "$status" -gt 128 ]
done

echo "$passed trials passed, $failed failed"
[ "$failed" -eq 0 ]
