#!/bin/bash
# What `make install`, `make uninstall` and `make dist` do: bash checks/dist.sh
#
# `make install` puts every file in its place in an empty folder whose name has a blank, with the version and the prefix in the manual pages, readable
# for all whatever the umask is, also over an earlier installation, and `make uninstall` leaves nothing there. A PREFIX that isn't absolute is rejected.
# Two calls of `make dist` write the same bytes, though the second has another umask and older files; names are sorted, and the owner is 0. VERSION is
# the newest heading of CHANGELOG.md. The commands in the manual page and the completions are those that `kp` accepts; the keywords and rules in the
# manual pages and the editor files are those of docs/. Shells, mandoc and man, where they are installed, accept their files without a message. Where no
# program is built, a stub is installed. bin/kp is the script `kp` of this folder and runs the program. KP, KPVIEW, KPCORE and KPRUN name other programs. The last line is `N checked, M wrong`, and the status is 0 where M is 0.
[ -n "${KP:-}" ] || [ -x "$(dirname "$0")/../crates/kp/out/kp" ] || KP=:
. "$(dirname "$0")/common.sh"
if [ "$kp" = : ]; then
    printf '#!/bin/sh\necho bad words\nexit 1\n' > "$work/stub"
    chmod 755 "$work/stub"
    kp=$work/stub
fi
kp=$(cd "$(dirname "$(command -v "$kp")")" && pwd)/$(basename "$kp")
kpview=${KPVIEW:-$top/crates/kpview/out/kpview}
if ! [ -x "$kpview" ]; then
    printf '#!/bin/sh\nexit 1\n' > "$work/view"
    chmod 755 "$work/view"
    kpview=$work/view
fi
kpview=$(cd "$(dirname "$(command -v "$kpview")")" && pwd)/$(basename "$kpview")
kpcore=${KPCORE:-$top/crates/kpcore/out/kpcore}
if ! [ -x "$kpcore" ]; then
    printf '#!/bin/sh\nexit 1\n' > "$work/core"
    chmod 755 "$work/core"
    kpcore=$work/core
fi
kpcore=$(cd "$(dirname "$(command -v "$kpcore")")" && pwd)/$(basename "$kpcore")
kprun=${KPRUN:-$top/crates/kprun/out/kprun}
if ! [ -x "$kprun" ]; then
    printf '#!/bin/sh\nexit 1\n' > "$work/run"
    chmod 755 "$work/run"
    kprun=$work/run
fi
kprun=$(cd "$(dirname "$(command -v "$kprun")")" && pwd)/$(basename "$kprun")
cd "$top" || exit 70
language=docs/LANGUAGE.md

# same WHAT TOOL ONE OTHER: ok where both lists have the same words, and some
same() {
    printf '%s\n' $3 | sort > "$work/one"
    printf '%s\n' $4 | sort > "$work/other"
    if [ -n "$3" ] && cmp -s "$work/one" "$work/other"; then
        says "$1" "$2" ok
    else
        says "$1" "$2" "too many: $(comm -23 "$work/one" "$work/other" | xargs), missing: $(comm -13 "$work/one" "$work/other" | xargs)"
    fi
}

# made TARGET WORD..: runs make as a user does, and puts what it printed into a file
made() {
    env -u MAKEFLAGS -u MAKELEVEL make -s --no-print-directory "$@" KP_BINARY="$kp" KPVIEW_BINARY="$kpview" KPCORE_BINARY="$kpcore" KPRUN_BINARY="$kprun" > "$work/made" 2>&1 < /dev/null ||
        echo "make $1 failed" >> "$work/made"
}

# Version
same VERSION CHANGELOG "$(cat VERSION)" "$(sed -n 's/^## //p' CHANGELOG.md | head -n 1)"

# Installed and removed
root="$work/the root"
at=$root/opt/some
(umask 077; made install DESTDIR="$root" PREFIX=/opt/some)
quiet install make "$work/made"
made install DESTDIR="$root" PREFIX=/opt/some
quiet again make "$work/made"
{
    cmp kp "$at/bin/kp"
    cmp kp "$at/share/kp/kp"
    cmp "$kp" "$at/libexec/kp/kp"
    cmp "$kpview" "$at/bin/kpview"
    cmp "$kpview" "$at/share/kp/kpview"
    cmp "$kpcore" "$at/bin/kpcore"
    cmp "$kpcore" "$at/share/kp/kpcore"
    cmp "$kprun" "$at/bin/kprun"
    cmp "$kprun" "$at/share/kp/kprun"
    for it in $(git ls-files docs 2> /dev/null || find docs -type f); do cmp "$it" "$at/share/doc/kp/$it"; done
    for it in $(git ls-files examples tools 2> /dev/null || find examples tools -type f); do
        cmp "$it" "$at/share/kp/$it"
        [ -x "$it" ] && ! [ -x "$at/share/kp/$it" ] && echo "$it can't be executed"
    done
    for it in README.md CHANGELOG.md CONTRIBUTING.md VERSION; do cmp "$it" "$at/share/doc/kp/$it"; done
    for it in kp kpview kpcore kprun; do
        cmp completions/$it.bash "$at/share/bash-completion/completions/$it"
        cmp completions/_$it "$at/share/zsh/site-functions/_$it"
        cmp completions/$it.fish "$at/share/fish/vendor_completions.d/$it.fish"
    done
    (cd editors/vim && find . -type f) | while read -r it; do cmp "editors/vim/$it" "$at/share/vim/vimfiles/$it"; done
    (cd editors/vscode && find . -type f) | while read -r it; do cmp "editors/vscode/$it" "$at/share/kp/vscode/$it"; done
    cmp VERSION "$at/share/kp/VERSION"
    grep -n '@[A-Z]*@' "$at"/share/man/man?/kp*.?
    grep -L "version $(cat VERSION)" "$at"/share/man/man?/kp*.? | sed 's/$/: has no version/'
    for it in kp kpview kpcore kprun; do
        grep -q /opt/some/share "$at/share/man/man1/$it.1" || echo "$it.1 doesn't name the prefix"
    done
    for it in yosys2kp kpasm kpvary kpcut; do
        "$at/bin/$it" --help < /dev/null | grep -q "^usage: $it " || echo "$it doesn't run where it is installed"
    done
    find "$root" -name __pycache__
    find "$root" -type d ! -perm 755 -o -type f ! -perm 644 ! -perm 755
    find "$at/bin" "$at/libexec" -type f ! -perm 755
    [ "$("$at/bin/kp" --version)" = "kp $(cat VERSION)" ] || echo "bin/kp --version prints another version"
    "$kp" > "$work/one"
    "$at/bin/kp" 2> /dev/null | cmp - "$work/one"
} > "$work/said" 2>&1
quiet files install "$work/said"
mkdir "$work/pages"
cp "$at"/share/man/man1/kp*.1 "$at/share/man/man5/kp.5" "$work/pages"
made uninstall DESTDIR="$root" PREFIX=/opt/some
{ cat "$work/made"; find "$root" -mindepth 1; } > "$work/said"
quiet uninstall make "$work/said"

# rejects WHAT TEXT WORD..: ok where make says this in one line, and installs nothing
rejects() {
    local what=$1 text=$2
    shift 2
    if ! env -u MAKEFLAGS -u MAKELEVEL make -s "$@" > "$work/said" 2>&1 && [ "$(wc -l < "$work/said")" -eq 1 ] && grep -q "$text" "$work/said" &&
        [ -z "$(find "$root" -mindepth 1)" ]; then
        says "$what" make ok
    else
        says "$what" make "$(head -n 1 "$work/said")"
    fi
}
rejects unbuilt 'run make' install DESTDIR="$root" KP_BINARY="$work/none" KPVIEW_BINARY="$kpview" KPCORE_BINARY="$kpcore" KPRUN_BINARY="$kprun"
rejects prefix absolute install DESTDIR="$root/" PREFIX=opt KP_BINARY="$kp" KPVIEW_BINARY="$kpview" KPCORE_BINARY="$kpcore" KPRUN_BINARY="$kprun"

# The same bytes twice
name=kp-$(cat VERSION)-linux-x86_64
archive=$name.tar.gz
for it in 1 2; do
    mkdir "$work/tree$it" && tar -cf - --exclude=out --exclude=crates --exclude=.git . | tar -xf - -C "$work/tree$it"
    (
        cd "$work/tree$it" || exit
        [ "$it" = 1 ] || { umask 077; find . -exec touch -h -d '2 days ago' {} +; }
        made dist
    )
done
cmp "$work"/tree[12]/out/dist/"$archive" > "$work/said" 2>&1
quiet dist make "$work/said"
(cd "$work/tree1/out/dist" && sha256sum --quiet -c SHA256SUMS) > "$work/said" 2>&1
quiet SHA256SUMS sha256sum "$work/said"
tar -tzf "$work/tree1/out/dist/$archive" > "$work/names"
{
    for it in bin/kp libexec/kp/kp bin/kpview bin/kpcore bin/kprun; do grep -qx "$name/$it" "$work/names" || echo "has no $it"; done
    mkdir "$work/unpacked" && tar -xzf "$work/tree1/out/dist/$archive" -C "$work/unpacked"
    [ "$("$work/unpacked/$name/share/kp/kp" --version)" = "kp $(cat VERSION)" ] || echo "share/kp/kp --version prints another version"
    "$work/unpacked/$name/bin/kp" 2> /dev/null | cmp - "$work/one"
    tr / '\001' < "$work/names" | LC_ALL=C sort -c 2>&1 | sed 's/.*/names are unsorted/'
    tar --numeric-owner -tvzf "$work/tree1/out/dist/$archive" | grep -v '^[^ ]* 0/0 ' | sed 's/^/has another owner: /'
} > "$work/said"
quiet archive tar "$work/said"

# The commands
commands=$(sed -n 's/.*codes "\([a-z]*\)".*/\1/p' $(grep -l '^abbrev pub plain_command' crates/*/specs/*.antt) | grep -v help)
same commands kp.1 "$(sed -n '/^\.Sh SYNOPSIS/,/^\.Sh DESC/s/^\.Cm \([a-z]*\).*/\1/p' man/kp.1)" "$commands"
same commands list "$(sed -n '/^The commands are/,/^\.Sh/s/^\.It Cm \([a-z]*\).*/\1/p' man/kp.1)" "$commands"
same commands bash "$(sed -n "s/.*:0) .*-W '\([a-z ]*\) --help --version'.*/\1/p" completions/kp.bash)" "$commands"
same commands zsh "$(sed -n "s/^  '\([a-z]*\):.*/\1/p" completions/_kp)" "$commands"
same commands fish "$(sed -n "s/.*'__kp_argument 1' -k -a \([a-z]*\) .*/\1/p" completions/kp.fish)" "$commands"

# Keywords and rules
keywords=$(sed -n '/The keywords$/,/`inputs`\.$/p' "$language" | tail -n +2 | grep -o '`[a-z]*`' | tr -d '`')
same keywords kp.5 "$(sed -n '/^\.It keywords/,/^\.It/s/^\.Cm //p' man/kp.5)" "$keywords"
same keywords vim "$(sed -n '/Todo/d; s/^syntax keyword kp[A-Za-z]* //p' editors/vim/syntax/kp.vim)" "$keywords"
same keywords textmate "$(sed -n 's/.*"\\\\b(\([a-z|]*\))\\\\b".*/\1/p' editors/vscode/kp.tmLanguage.json | tr '|' ' ')" "$keywords"
same commands usage "$(sed -n 's/^  \([a-z]*\) .*/\1/p' kp)" "$commands"
same rules kp.5 "$(sed -n 's/^\.It \(E[0-9]*\)$/\1/p' man/kp.5)" "$(sed -n '/^| rule | violated/,/^$/s/^| \(E[0-9]*\) .*/\1/p' "$language")"
same rules kp.1 "$(sed -n 's/^\.It \([AV][0-9]*\)$/\1/p' man/kp.1)" \
    "$(sed -n '/^| rule | violated/,/^$/s/^| \([AV][0-9]*\) .*/\1/p' docs/VERILOG.md docs/DLX.md) V6"

# What other tools say of the files
if has mandoc; then mandoc -T lint man/*.1 man/*.5 "$work"/pages/*.1 "$work/pages/kp.5" > "$work/said" 2>&1; quiet pages mandoc "$work/said"; fi
if has man && man --version 2> /dev/null | grep -q '^man '; then
    for it in kp.1 kp.5 kpview.1 kpcore.1 kprun.1; do LC_ALL=C.UTF-8 man --warnings -l "$work/pages/$it" 2>&1 > /dev/null; done > "$work/said"
    quiet pages man "$work/said"
fi
for it in kp kpview kpcore kprun; do bash -n completions/$it.bash; done > "$work/said" 2>&1
quiet completion bash "$work/said"
if has zsh; then for it in kp kpview kpcore kprun; do zsh -n completions/_$it; done > "$work/said" 2>&1; quiet completion zsh "$work/said"; fi
if has fish; then for it in kp kpview kpcore kprun; do fish --no-execute completions/$it.fish; done > "$work/said" 2>&1; quiet completion fish "$work/said"; fi
if has python3; then for it in editors/vscode/*.json; do python3 -m json.tool "$it" 2>&1 > /dev/null; done > "$work/said"; quiet vscode python3 "$work/said"; fi
if has shellcheck; then shellcheck -S error kp kpview kpcore kprun try .ci/deb > "$work/said" 2>&1; quiet scripts shellcheck "$work/said"; fi
summary
