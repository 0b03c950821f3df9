#!/bin/bash
# Whether the labs of docs/labs are sound: bash checks/labs.sh
#
# Each answer passes the tests of its lab, and each file to begin with is accepted by the program and doesn't pass. Answers into which a fault is planted don't pass. KP
# names another program than crates/kp/out/kp; where there is none, the check is skipped. Lab 6 needs kpview and lab 9 kpcore: KPVIEW and KPCORE name
# other programs than those that are built here, and without one its lab is left out. The last line is `N checked, M wrong`, and the status is 0 where M is 0.
[ -n "${KP:-}" ] || [ -x "$(dirname "$0")/../crates/kp/out/kp" ] || { echo "kp isn't built"; exit 77; }
. "$(dirname "$0")/common.sh"
need python3
cd "$top/docs/labs" || exit 70
export KP="$kp" PYTHONDONTWRITEBYTECODE=1

# passes LAB FILE: whether the file passes the tests of the lab
passes() { tests/check "$1" "$2" > "$work/said" 2>&1; }

# wrong LAB FILE WHAT: ok where tests find a fault, and no fault of the text
wrong() {
    if passes "$1" "$2"; then
        says "lab $1" "$3" "passes"
    elif grep -q 'refused\|Traceback' "$work/said"; then
        says "lab $1" "$3" "$(grep -m 1 'refused\|Error' "$work/said")"
    else
        says "lab $1" "$3" ok
    fi
}

export KPVIEW="${KPVIEW:-$top/crates/kpview/out/kpview}" KPCORE="${KPCORE:-$top/crates/kpcore/out/kpcore}"
labs="1 2 3 4 5 7 8 10"
[ -x "$KPVIEW" ] && labs="$labs 6" || missing="$missing kpview"
[ -x "$KPCORE" ] && labs="$labs 9" || missing="$missing kpcore"
for it in $labs; do
    answer=$(echo answers/$it.*)
    if passes $it "$answer"; then says "lab $it" answer ok; else says "lab $it" answer "$(head -n 1 "$work/said")"; fi
done
for it in 1.kp 3.kp 4.v 7.kp 10.kp; do wrong "${it%.*}" start/$it start; done
wrong 4 answers/4-wait.v wait
"$kp" check < start/4.kp > /dev/null || says 'lab 4' job "is rejected"
for job in answers/1.kp answers/2.kp answers/3.kp; do
    lab=$(basename $job .kp)
    { sed '/^end/d' $job; cat start/loop.image; } | "$kp" seq 41 | grep -qx "DM\[1\] = 8'h1e" || says "lab $lab" loop "doesn't store 30"
done

# planted LAB WHAT EDIT: an answer with a fault
planted() {
    sed "$3" answers/$1.* > "$work/planted"
    if cmp -s "$work/planted" answers/$1.[kv]*; then says "lab $1" "$2" "the edit changes nothing"; else wrong "$1" "$work/planted" "$2"; fi
}
planted 1 unsigned 's/{~a.*< {.*;/a < b;/'
planted 1 register0 "s/ & ~(i\[11:9\] == 3'h0)//"
planted 1 branch 's/? next + sext/? p + sext/'
planted 1 constant 's/a + sext(i/a + zext(i/'
planted 2 waits "s/ when op < 4'h4//; s/read a = .*\] when.*/read a = R[IR[8:6]];/"
planted 2 store 's/set M = X;/set M = A;/'
planted 3 counters "s/(k == 2'h3 ? k : k + 2'h1)/k/"
planted 3 target 's/taken ? next + c : next/taken ? P + c : next/'
planted 5 signs 's/f\[0\] ? a < b : less(a, b)/f[0] ? less(a, b) : a < b/'
planted 5 imm "s/IR\[25\] \& opreg/IR[25]/"
case $labs in *6*) planted 6 minus "s/? a - b/? b - a/" ;; esac
planted 7 store "s/ \& ~taken;\$/;/"
planted 7 enable 's/let taken = I & enabled/let taken = I/'
planted 8 stalls 's/^  3 from.*//'
planted 10 upper "s/b\[3\] ? {a\[4:0\]/b[3] ? {a[5:1]/"
planted 4 file 's/assign n142 = n141 ? n304/assign n142 = n141 ? n123/'
planted 4 sum 's/assign n150 = n144 ? n221/assign n150 = n144 ? n202/'
planted 4 empty2 's/assign n150 = n144/assign n150 = n143/'
planted 4 empty3 's/assign n142 = n141/assign n142 = n140/'
summary
