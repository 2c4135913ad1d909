# Runs the program NAME of crates/NAME_cli, and builds it first where it is missing or older than its sources. Where a build
# fails no program runs, not even an older one, and the status is 70. Read by ./raim, ./raim_vert, ./raim_fleet,
# ./raim_chart and ./notice, which set `here`.

# Ends with the status of a launcher that ran nothing.
fail() {
    echo "$name: $1; nothing was run" >&2
    exit 70
}

# The crates that the program stands on, with itself, lowest first, as crates.txt has them; of each its name, or with `lines` its line.
crates_of() {
    awk -v top="${name}_cli" -v form="${1-names}" '
        { sub(/#.*/, "") }
        NF { crate = $1; sub(/:.*/, "", crate); order[++count] = crate; line[crate] = $0; uses[crate] = $0; sub(/^[^:]*:/, "", uses[crate]) }
        function mark(crate, words, number, at) {
            if (!(crate in uses) || crate in marked) return
            marked[crate] = 1
            number = split(uses[crate], words)
            for (at = 1; at <= number; at++) mark(words[at])
        }
        END { mark(top); for (at = 1; at <= count; at++) if (order[at] in marked) print (form == "lines" ? line[order[at]] : order[at]) }' "$here/crates.txt"
}

is_current() {
    [ -x "$program" ] || return 1
    crates=$(crates_of) || return 1
    [ -n "$crates" ] || return 1
    set -- "$here/crates.txt"
    for crate in $crates; do
        set -- "$@" "$here/crates/$crate"
    done
    newer=$(find "$@" -name out -prune -o -name must-fail -prune -o -type f ! -name '*.md' -newer "$program" -print 2>&1) || return 1
    [ -z "$newer" ]
}

# A repository of the program's crates alone, without their wrong bodies and what was made of them before.
copy_sources() {
    mkdir -p -- "$copy/.git" "$copy/crates" "$room/temporary" || return 1
    cp -- "$here/HANDLES" "$copy/" || return 1
    crates_of lines >"$copy/crates.txt" || return 1
    for crate in $crates; do
        mkdir -- "$copy/crates/$crate" || return 1
        for part in "$here/crates/$crate"/*; do
            case ${part##*/} in
            out | must-fail) ;;
            *) cp -R -- "$part" "$copy/crates/$crate/" || return 1 ;;
            esac
        done
    done
}

# Says of each further crate that it is proved.
tell() {
    told=$(cat -- "$room/told" 2>/dev/null) || return
    awk -v told="$told" -v of="$number" -v name="$name" -v file="$room/told" '
        $1 == "rt:" && ($3 == "proved" || $3 == "is" && $4 == "kept:") { count++; if (count > told) print name ": proving " count " of " of ": " $2 }
        END { print count + 0 > file }' "$room/log" >&2
}

# Leaves no file of a build.
clear_build() {
    rm -f -- "$program.new"
    rm -rf -- "$room" 2>/dev/null || { sleep 1; rm -rf -- "$room"; }
}

# Ends what a build began.
stop_build() {
    if [ -n "$builder" ]; then
        kill "$builder" 2>/dev/null
        wait "$builder" 2>/dev/null
    fi
    clear_build
    exit "$1"
}

# Ends a build that made no program, with what it said.
fail_build() {
    cat -- "$room/log" >&2
    clear_build
    fail "$1"
}

build() {
    command -v rt >/dev/null 2>&1 || fail "the toolchain's command rt is not in PATH, and the program has to be built first"
    rm -f -- "$program" 2>/dev/null
    [ ! -e "$program" ] || fail "$program is older than its sources and cannot be removed"
    (mkdir -p -- "${program%/*}" && : >"$program.new") 2>/dev/null || fail "${program%/*} cannot be written"
    rm -f -- "$program.new"
    crates=$(crates_of) || fail "crates.txt cannot be read"
    number=$(echo "$crates" | wc -l | tr -d ' ')
    echo "$name: building, once: $number crates are proved, side by side where there are processors" >&2
    room=$(mktemp -d) || fail "no temporary folder can be made"
    builder=
    trap 'stop_build 129' HUP
    trap 'stop_build 130' INT
    trap 'stop_build 143' TERM
    copy=$room/copy
    : >"$room/log"
    echo 0 >"$room/told"
    # (what changes from here on is newer than the program)
    : >"$room/begun"
    copy_sources 2>"$room/log" || fail_build "the sources cannot be copied"
    (cd -- "$copy" && TMPDIR=$room/temporary exec rt ci </dev/null >"$room/log" 2>&1) &
    builder=$!
    (while sleep 1 && [ -d "$room" ] && [ ! -e "$room/ended" ]; do tell; done) &
    teller=$!
    wait "$builder"
    status=$?
    : >"$room/ended"
    wait "$teller"
    tell
    made=$copy/crates/${name}_cli/out/${name}_cli
    [ "$status" -eq 0 ] && [ -x "$made" ] || fail_build "the build failed"
    cp -- "$made" "$program.new" && touch -r "$room/begun" -- "$program.new" && mv -- "$program.new" "$program" || fail_build "$program cannot be written"
    clear_build
    trap - HUP INT TERM
}

launch() {
    name=$1
    shift
    program=$here/crates/${name}_cli/out/${name}_cli
    is_current || build
    exec "$program" "$@"
}
