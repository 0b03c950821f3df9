#!/bin/bash
# The version in VERSION is the one that kp, kpview, kpcore and kprun print, and that of the extension for editors: bash checks/version.sh
#
# The lines of `kpview --version`, `kpcore --version` and `kprun --version` are constants of kp_view_words, kp_core and kp_runner; they are compared in the source, and in the output
# of the programs where they are built. KPVIEW, KPCORE and KPRUN name other programs. The last line is `N checked, M wrong`, and the status is 0 where M is 0.
top=$(cd "$(dirname "$0")/.." && pwd) || exit 70
cd "$top" || exit 70
kpview=${KPVIEW:-crates/kpview/out/kpview}
kpcore=${KPCORE:-crates/kpcore/out/kpcore}
kprun=${KPRUN:-crates/kprun/out/kprun}
checked=0
wrong=0
# is PROGRAM WHERE LINE
is() {
    checked=$((checked + 1))
    [ "$3" = "$1 $(cat VERSION)" ] && return
    echo "$2 of $1 has \`$3\`, VERSION has \`$(cat VERSION)\`"
    wrong=$((wrong + 1))
}
said() { sed -n 's/.*VERSION: &str = "\(.*\)\\n";/\1/p' "$1"; }
is kpview source "$(said crates/kp_view_words/src/texts.rt)"
is kpcore source "$(said crates/kp_core/src/texts.rt)"
is kprun source "$(said crates/kp_runner/src/texts.rt)"
is kp script "$(./kp --version)"
is kp extension "kp $(sed -n 's/.*"version": "\(.*\)",/\1/p' editors/vscode/package.json)"
if [ -x "$kpview" ]; then is kpview program "$("$kpview" --version)"; fi
if [ -x "$kpcore" ]; then is kpcore program "$("$kpcore" --version)"; fi
if [ -x "$kprun" ]; then is kprun program "$("$kprun" --version)"; fi
echo "$checked checked, $wrong wrong"
[ "$wrong" -eq 0 ]
