# What tests have in common; a test sources it from the root of the tree. $work is a folder for its files, and $tried counts its commands.
set -eu
named=tests/${0##*/}
fail() { echo "$named: $*" >&2; exit 1; }
# need PROGRAM...: they have to be there.
need() {
    local program from
    for program; do
        command -v "$program" >/dev/null 2>&1 && continue
        case $program in target/bin/*) from=": tools/build programs makes it" ;; *) from= ;; esac
        echo "$named: $program is missing$from" >&2
        exit 2
    done
}
# $lib is the folder of libhookup.a: that of HOOKUP_LIB or, where it is not set, the one of this tree, where it is built.
need_library() {
    lib=${HOOKUP_LIB:-$PWD/target/staticlib}
    [ -n "${HOOKUP_LIB:-}" ] || tools/build library
    [ -f "$lib/libhookup.a" ] || { echo "$named: $lib/libhookup.a is missing" >&2; exit 2; }
}
# What this machine cannot try is told, and told again at the end of ./test.
not_tried() { echo "$named: $*" | tee -a "${NOT_TRIED:-/dev/null}"; }
# Paths below it are words of commands here, and must have no blanks.
[[ ${TMPDIR:-} != *[[:space:]]* ]] || unset TMPDIR
work=$(readlink -f "$(mktemp -d)")
trap 'rm -rf "$work"' EXIT
tried=0
typed=

# Commands as a person types them. expect STATUS COMMAND...: it ends with this status; what it prints is in $work/out and $work/err.
expect() {
    local wanted=$1 status=0
    shift
    typed=$*
    "$@" >"$work/out" 2>"$work/err" || status=$?
    [ "$status" -eq "$wanted" ] || fail "'$typed' ends with status $status, not $wanted: $(head -c 2000 "$work/out") $(head -c 2000 "$work/err")"
    tried=$((tried + 1))
}
# said TEXT FILE: it stands in FILE, out or err; is_said LINES FILE: these lines and no others do.
said() { grep -qF -- "$1" "$work/$2" || fail "'$typed': '$1' is not in $2, '$(head -c 4000 "$work/$2")'"; }
is_said() {
    printf '%s' "${1:+$1
}" | cmp -s - "$work/$2" || fail "'$typed' prints '$(head -c 4000 "$work/$2")' to $2, not '$1'"
}
# try STATUS OUT ERR COMMAND...: it ends with this status and prints these lines and no others.
try() {
    expect "$1" "${@:4}"
    is_said "$2" out
    is_said "$3" err
}
