# Shared by bin/build, .ci/run and desk/check, which source it at the root of the repository: what is being done, how far it is, how long it
# took. What the tools say in full is kept under log/.

# need TOOL WHAT: a sentence and status 2 where it is not on the path
need() {
    command -v "$1" >/dev/null && return
    echo "$0: $1 is not on the path. It is $2: install it, or add its folder to PATH, and run this again." >&2
    exit 2
}

needs() {
    need rt "the Rattle toolchain, which proves and builds the engines"
    need cargo "Rust's build tool, which builds and tests the desk"
}

# logging NAME: from here on all goes to log/NAME.log
logging() {
    mkdir -p log
    log=log/$1.log
    : >"$log"
}

# step TITLE COMMAND...: says what is done and how long it took; where it fails, gives back its status
step() {
    local title=$1 began=$SECONDS status=0
    shift
    echo "$title"
    "$@" || status=$?
    local took=$((SECONDS - began))
    if [ "$status" -ne 0 ]; then
        echo "  FAILED after $took s, with status $status; all that was said is in $log"
        return "$status"
    fi
    echo "  done in $took s"
}

# quietly COMMAND...: what it says goes to the log, and its end is shown where it fails
quietly() {
    local status=0
    "$@" >>"$log" 2>&1 || status=$?
    [ "$status" -eq 0 ] || tail -n 40 "$log"
    return "$status"
}

# proving COMMAND...: rt's verdicts as they come, each crate and each edit counted; what led to one that is bad is shown before it
proving() {
    "$@" 2>&1 | tee -a "$log" | awk -v crates="$(grep -vc '^#' crates.txt)" -v edits="$(find crates -name '*.edit' | wc -l)" '
        function led(    k) { for (k = 1; k <= said && k <= 60; k++) print line[k]; said = 0 }
        function passed(what) { printf "  %2d of %d  %-14s %s\n", ++proved, crates, $2, what; said = 0; fflush() }
        /^rt: / { more = 0 }
        /^== / { said = 0; next }
        /^rt: [a-z0-9_]+ proved/ { passed("proved"); next }
        /^rt: [a-z0-9_]+ is kept/ { passed("proved by an earlier run"); next }
        /^rt: must-fail .*: refused, as it must be/ { printf "  edit %3d of %d  %s\n", ++refused, edits, substr($0, 15); said = 0; fflush(); next }
        /^rt: (ok|[a-z0-9_]+ ran|[a-z0-9_]+: trying)/ { print "  " substr($0, 5); said = 0; fflush(); next }
        /^rt: / { led(); print; more = /BAD EDIT/; fflush(); next }
        more { print; next }
        /: proved$|^(library|logic|crate|statements|checked) |^logic=|^empty contracts|^[0-9]+ passed, [0-9]+ failed/ { next }
        { line[++said] = $0 }
        END { led() }'
}

# checking: rt all check, crate by crate; what it says of one that does not prove is shown at the end
checking() {
    local status=0
    rt all check 2>&1 | tee -a "$log" | awk -v crates="$(grep -vc '^#' crates.txt)" '
        /^== / && $2 != "summary" { printf "  %2d of %d  %s\n", ++seen, crates, $2; fflush() }' || status=$?
    [ "$status" -eq 0 ] || grep -E 'error|no proof|not proved|NOT PROVED' "$log" | tail -n 40
    return "$status"
}

# kept FROM TO: a copy, made only where it would be another file, so that what is built of it is not built again
kept() {
    cmp -s "$1" "$2" || cp "$1" "$2"
}

# archive NAME CRATE: target/staticlib/libNAME.a of a static library as it stands, made again only where the crate is another
archive() {
    mkdir -p target/staticlib || return
    (cd "crates/$2" && rt lib) >>"$log" 2>&1 || { tail -n 40 "$log"; return 1; }
    kept "crates/$2/out/lib$2.a" "target/staticlib/lib$1.a"
}

# program NAME: target/bin/NAME; a run without input is how rt builds one
program() {
    mkdir -p target/bin || return
    (cd "crates/$1" && rt run </dev/null) >>"$log" 2>&1 || { tail -n 40 "$log"; return 1; }
    kept "crates/$1/out/$1" "target/bin/$1"
}

programs() {
    program y86run && program y86peaks
}
