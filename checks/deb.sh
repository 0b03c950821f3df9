#!/bin/bash
# What `make deb` does: bash checks/deb.sh
#
# Two calls write the same package, though the second has another umask and older files. dpkg installs it in an empty folder, where kp, kpview, kpcore and kprun run, with
# the output and the status that they have here, and removes it with all its files. Each file has its sum, and belongs to root. Lintian, where it is installed, finds
# no error. Where a program isn't built, a stub is packed; KP, KPVIEW and KPCORE name other programs. Where dpkg-deb is missing the check is skipped. The last line
# is `N checked, M wrong`, and the status is 0 where M is 0.
[ -n "${KP:-}" ] || [ -x "$(dirname "$0")/../crates/kp/out/kp" ] || KP=:
. "$(dirname "$0")/common.sh"
need dpkg-deb
need dpkg
cd "$top" || exit 70

# program NAME FILE: the path of a program, or of a stub
program() {
    local it
    if it=$(command -v "$2") && [ "$2" != : ]; then readlink -f "$it"; return; fi
    printf '#!/bin/sh\necho bad words\nexit 1\n' > "$work/$1"
    chmod 755 "$work/$1"
    echo "$work/$1"
}
kp=$(program kp "$kp")
kpview=$(program kpview "${KPVIEW:-crates/kpview/out/kpview}")
kpcore=$(program kpcore "${KPCORE:-crates/kpcore/out/kpcore}")
kprun=$(program kprun "${KPRUN:-crates/kprun/out/kprun}")

# The same bytes twice
name=kp_$(cat VERSION)_amd64.deb
for it in 1 2; do
    mkdir "$work/tree$it" && tar -cf - --exclude=out --exclude=crates --exclude=.git . | tar -xf - -C "$work/tree$it"
    (
        cd "$work/tree$it" || exit
        [ "$it" = 1 ] || { umask 077; find . -exec touch -h -d '2 days ago' {} +; }
        env -u MAKEFLAGS -u MAKELEVEL make -s --no-print-directory deb DEBEMAIL=kp@example.org KP_BINARY="$kp" KPVIEW_BINARY="$kpview" KPCORE_BINARY="$kpcore" KPRUN_BINARY="$kprun"
    ) > "$work/made" 2>&1 < /dev/null || sed 's/^/make: /' "$work/made"
done
cmp "$work"/tree[12]/out/deb/"$name" > "$work/said" 2>&1
quiet deb make "$work/said"
package=$work/tree1/out/deb/$name
dpkg-deb -c "$package" | awk '$2 != "root/root"' > "$work/said"
quiet owner dpkg-deb "$work/said"

# Installed, run and removed in a folder
root=$work/root
mkdir -p "$root/var/lib/dpkg/info" "$root/var/lib/dpkg/updates" "$root/var/lib/dpkg/triggers"
touch "$root/var/lib/dpkg/status" "$root/var/lib/dpkg/available"
in_folder() { dpkg --root="$root" --log="$work/log" --force-not-root,depends "$@" > "$work/said" 2>&1 || echo "dpkg ended with status $?" >> "$work/said"; }
in_folder --install "$package"
{
    dpkg --root="$root" -s kp 2> /dev/null | grep -qx 'Status: install ok installed' || cat "$work/said"
    (cd "$root" && md5sum --quiet -c var/lib/dpkg/info/kp.md5sums)
    [ "$(cd "$root" && find usr -type f | wc -l)" -eq "$(wc -l < "$root/var/lib/dpkg/info/kp.md5sums")" ] || echo "not each file has a sum"
} > "$work/differs" 2>&1
quiet install dpkg "$work/differs"
for it in kp kpview kpcore kprun; do
    given=$kp
    [ "$it" = kp ] || given=${!it}
    for words in '' --version 'check'; do
        [ "$it$words" != kp--version ] || continue
        # shellcheck disable=SC2086 # the words are several arguments
        "$given" $words < examples/acc3.kp > "$work/one" 2> /dev/null
        one=$?
        # shellcheck disable=SC2086
        "$root/usr/bin/$it" $words < examples/acc3.kp > "$work/other" 2> /dev/null
        if [ $one -eq $? ] && cmp -s "$work/one" "$work/other"; then says "$it" "${words:-alone}" ok; else says "$it" "${words:-alone}" 'has another output or status'; fi
    done
done
if [ "$("$root/usr/share/kp/kp" --version)" = "kp $(cat VERSION)" ]; then says kp --version ok; else says kp --version 'is another'; fi
for it in kp.1 kp.5 kpview.1 kpcore.1 kprun.1; do gzip -dc "$root/usr/share/man/man${it##*.}/$it.gz" | grep -q "version $(cat VERSION)" || echo "$it.gz has no version"; done > "$work/differs"
quiet pages gzip "$work/differs"
in_folder --purge kp
find "$root" -path "$root/var/lib/dpkg" -prune -o ! -type d -print > "$work/differs"
grep 'status' "$work/said" >> "$work/differs"
quiet purge dpkg "$work/differs"
if has lintian; then
    lintian --allow-root --fail-on none "$package" 2>&1 | grep '^E:' > "$work/differs"
    quiet package lintian "$work/differs"
fi
summary
