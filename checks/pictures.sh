#!/bin/bash
# Whether the pictures of docs/pictures/ are those that kpview draws: bash checks/pictures.sh [write]
#
# docs/pictures/list has a line for each picture. With `write` the pictures are written anew. KPVIEW names another program than
# crates/kpview/out/kpview; where there is none, the check is skipped. A picture of the folder that isn't listed is wrong, and so is one that no page shows.
# The last line is `N checked, M wrong`, and the status is 0 where M is 0.
set -u
top=$(cd "$(dirname "$0")/.." && pwd) || exit 70
cd "$top" || exit 70
kpview=${KPVIEW:-crates/kpview/out/kpview}
command -v "$kpview" > /dev/null || { echo "kpview isn't built"; exit 77; }
work=$(mktemp -d) || exit 70
trap 'rm -rf "$work"' EXIT
checked=0
wrong=0
fails() {
    echo "docs/pictures/$1: $2"
    wrong=$((wrong + 1))
}
while IFS='|' read -r file words job edit; do
    case $file in '#'* | '') continue ;; esac
    read -r file <<< "$file"
    read -r job <<< "$job"
    read -r edit <<< "${edit:-}"
    checked=$((checked + 1))
    # shellcheck disable=SC2086 # the words are several arguments
    sed "$edit" "$job" | "$kpview" $words > "$work/$file" || { fails "$file" "kpview ended with status $?"; continue; }
    if [ "${1:-}" = write ]; then cp "$work/$file" "docs/pictures/$file"; fi
    cmp -s "$work/$file" "docs/pictures/$file" || fails "$file" "kpview draws another picture"
    grep -q "pictures/$file)" README.md docs/*.md || fails "$file" "no page shows it"
done < docs/pictures/list
for it in docs/pictures/*.svg; do
    [ -f "$work/${it##*/}" ] || fails "${it##*/}" "it isn't in docs/pictures/list"
done
echo "$checked checked, $wrong wrong"
[ "$wrong" -eq 0 ]
