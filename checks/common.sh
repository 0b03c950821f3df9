# What the scripts of checks/ and benches/ share; each reads this file first.
#
#   top    the top of the repository
#   kp     the program: KP, or crates/kp/out/kp, which is built where it is missing
#   work   a temporary folder, removed at the end
#
# A check ends with status 0 where it passed, 77 where it was skipped, and another where it failed. Its last line is a summary.
set -u
top=$(cd "$(dirname "$0")/.." && pwd) || exit 70
kp=${KP:-$top/crates/kp/out/kp}
if [ -z "${KP:-}" ] && ! [ -x "$kp" ]; then
    make -s -C "$top" kp < /dev/null >&2 || exit 70
fi
command -v "$kp" > /dev/null || { echo "KP names no program: $kp" >&2; exit 70; }
work=$(mktemp -d) || exit 70
trap 'rm -rf "$work"' EXIT

checked=0
wrong=0
missing=

# need TOOL: ends the check where a tool isn't installed that all of it needs
need() {
    command -v "$1" > /dev/null && return
    echo "$1 isn't installed"
    exit 77
}

# has TOOL: whether the tool is installed; the summary lists those that aren't
has() {
    command -v "$1" > /dev/null && return
    case " $missing " in *" $1 "*) ;; *) missing="$missing${missing:+ }$1" ;; esac
    return 1
}

# says JOB TOOL RESULT: prints a result, and counts it. `ok` begins those that are right, and `skipped` those that count for nothing.
says() {
    printf '%-12s %-10s %s\n' "$1" "$2" "$3"
    case $3 in
        skipped*) ;;
        ok*) checked=$((checked + 1)) ;;
        *) checked=$((checked + 1)); wrong=$((wrong + 1)) ;;
    esac
}

# quiet JOB TOOL FILE: ok where the file is empty, else its first line
quiet() {
    if [ -s "$3" ]; then says "$1" "$2" "$(head -n 1 "$3")"; else says "$1" "$2" ok; fi
}

# summary: the last line of a check, and its status
summary() {
    echo "$checked checked, $wrong wrong${missing:+; not installed: $missing}"
    [ "$wrong" -eq 0 ] || exit 1
    [ "$checked" -gt 0 ] || exit 77
    exit 0
}

# measured WHAT WORD..: runs the words, and prints on standard error what was run, its seconds and its memory
measured() {
    local what="$1" status=0
    shift
    if [ -x /usr/bin/time ]; then
        /usr/bin/time -f "$what: %e s by the clock, %U s in the program, %M KiB" "$@" || status=$?
    else
        echo "$what: not measured, GNU time isn't installed" >&2
        "$@" || status=$?
    fi
    return $status
}
