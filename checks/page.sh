#!/bin/bash
# Opens pages that `kpview page` writes in a browser: bash checks/page.sh [FOLDER]
#
# The pages are those of mini5, of dlxs with a program, and of a RISC-V processor with one. Chromium, without a window, must print no message on the
# console of a page; the script of the page must show the chosen cycle, why instructions wait in it, the numbers at the edges of the diagram, and the tables;
# in cycle 18 of mini5 the lines of two reads must be marked; and a picture of the page is taken, which FOLDER keeps, if it is given.
#
# Where Chromium or the word `page` isn't there, nothing is checked. The last line is `N checked, M wrong`, and the status is 0 where M is 0, and 77
# where nothing could be checked. KP and KPVIEW name other programs than those that are built here, CHROMIUM another browser.
. "$(dirname "$0")/common.sh"
kpview=${KPVIEW:-$top/crates/kpview/out/kpview}
browser=${CHROMIUM:-$(command -v chromium || command -v chromium-browser || echo chromium)}
need "$browser"
command -v "$kpview" > /dev/null || { echo "kpview isn't built"; exit 77; }
"$kpview" page 1 "$top/examples/acc3.kp" > /dev/null 2>&1 || { echo "kpview has no word page"; exit 77; }
keep=${1:-$work}
mkdir -p "$keep" || exit 70

# open PAGE CYCLE WORD..: runs the browser on a page with a chosen cycle
open() {
    local address="file://$1#$2"
    shift 2
    timeout 120 "$browser" --headless --no-sandbox --disable-gpu --enable-logging=stderr --window-size=1500,900 "$@" "$address"
}

# page NAME CYCLE N WORD.. < JOB
page() {
    local name=$1 cycle=$2 count=$3 file
    shift 3
    file="$(cd "$work" && pwd)/$name.html"
    "$kpview" page "$count" "$@" > "$file" || { says "$name" kpview "status $?"; return; }
    open "$file" "$cycle" --dump-dom > "$work/dom" 2> "$work/said"
    grep CONSOLE "$work/said" > "$work/console"
    quiet "$name" console "$work/console"
    if grep -q "<output id=\"place\"[^>]*>cycle $cycle of $count</output>" "$work/dom"; then says "$name" cycle ok; else says "$name" cycle "cycle $cycle isn't shown"; fi
    if grep -q '<div id="why"[^>]*><p>' "$work/dom"; then says "$name" reasons ok; else says "$name" reasons "none is given"; fi
    if [ "$(grep -o '<g class="axis" transform' "$work/dom" | wc -l)" -eq 2 ]; then says "$name" axes ok; else says "$name" axes "they don't stay at the edges"; fi
    if [ "$(grep -c "<tr class=\"new\"\|<tr>" "$work/dom")" -gt 0 ]; then says "$name" tables ok; else says "$name" tables "they are empty"; fi
    open "$file" "$cycle" --screenshot="$keep/$name.png" > /dev/null 2>&1
    if [ -s "$keep/$name.png" ]; then says "$name" picture ok; else says "$name" picture "there is none"; fi
}

page mini5 18 26 IF ID EX ME WB < "$top/examples/mini5.kp"
if [ "$(grep -c '<li class="waits">' "$work/dom")" -eq 2 ]; then says mini5 lines ok; else says mini5 lines "they aren't marked"; fi
"$top/examples/with-program" dlxs.kp sum.dlx > "$work/dlxs.kp" && page dlxs 20 60 < "$work/dlxs.kp"
(sed '$d' "$top/examples/riscv/rv32i.kp"; cat "$top/examples/riscv/images/crc.image"; echo end) > "$work/rv32i.kp"
page rv32i 30 100 < "$work/rv32i.kp"
summary
