#!/bin/bash
# Whether the build is reproducible: bash checks/build.sh
#
# Compiles each program in two copies of the sources, in folders whose names have other lengths, the second under another umask and from older files,
# and compares the bytes.
#
# The kit stores what it proved and built, and gives a later build of the same sources the stored program. So each copy has a kit of its own: links to
# the installed one, with another store, which has links to the stored libraries and no program. A program is one module of all functions that it
# calls, so this compiles all of it. The log of each build has to say that the program was proved in that build, and linked with the files of that kit.
# The store of the installed kit stays as it is. Where the gate has passed here, each program takes some minutes in each copy; where nothing is stored,
# the first copy takes as long as `make`. Settings, by the environment:
#
#   PROGRAMS='kp kpcore'   only these programs
#   ANEW=1                 both copies prove and build the libraries too: twice as long as `make`
#
# The last line is `N checked, M wrong`, and the status is 0 where M is 0.
KP=${KP:-:}
. "$(dirname "$0")/common.sh"
need rt
cd "$top" || exit 70
programs=${PROGRAMS:-kp kpview kpcore kprun}
for it in $programs; do
    [ -f "crates/$it/src/main.rt" ] || { echo "PROGRAMS has \`$it\`, which is no program of crates/"; exit 70; }
done
kit=$(dirname "$(rt doc)")
[ -x "$kit/bin/rt" ] && [ -x "$kit/bin/rattle" ] || { echo "the kit isn't in $kit"; exit 70; }
store=${kit%/*}/rattle-kept

# links STORE OTHER: links all that is stored in the first to the second, but no program
links() {
    local it entry crate
    for it in "$1"/proof-* "$1"/tests-*; do
        entry=${it##*/}
        crate=${entry#*-}
        crate=${crate%-*}
        [ ! -d "$it" ] || [ -e "crates/$crate/src/main.rt" ] || [ -e "$2/$entry" ] || ln -s "$it" "$2/" || exit 70
    done
}

# own_kit FOLDER: a kit in this folder, with an empty store. The command rt finds kit and store by the folder that its own file is in, so bin/ is copied.
own_kit() {
    local it
    mkdir -p "$1/rattle/bin" "$1/rattle-kept" && cp -pR "$kit"/bin/* "$1/rattle/bin" || exit 70
    for it in "$kit"/*; do
        [ "$it" = "$kit/bin" ] || ln -s "$it" "$1/rattle/" || exit 70
    done
}

# builds COPY: builds the programs, each with its log
builds() (
    here=$1
    cd "$here/sources" || exit 70
    [ "$here" = "$short" ] || { umask 077; find . -exec touch -h -d '2 days ago' {} +; }
    for it in $programs; do
        rm -f out/build.log
        env -u MAKEFLAGS -u MAKELEVEL PATH="$here/kit/rattle/bin:$PATH" TMPDIR="$here/tmp" \
            make -s --no-print-directory programs="$it" "$it" < /dev/null > "$here/$it.said" 2>&1 || echo 'make failed' >> "$here/$it.said"
        cp out/build.log "$here/$it.log" 2> /dev/null || : > "$here/$it.log"
    done
)

# compiled PROGRAM COPY: prints why the program was not compiled there, or nothing where it was
compiled() {
    if [ "$(tail -n 1 "$2/$1.said")" = 'make failed' ]; then
        echo "make failed: $(grep -E -m 1 'NOT PROVED|FAILED|error' "$2/$1.log" || grep -v '^make' "$2/$1.said" | tail -n 1)"
    elif ! grep -qx "rt: $1 proved" "$2/$1.log"; then
        echo "was not built: $(grep -E "^rt: $1 (is kept|NOT PROVED)" "$2/$1.log" || echo 'the log has no line of it')"
    elif ! grep '^linked ' "$2/$1.log" | grep -qF "files=out/$1.o,$2/kit/rattle/"; then
        echo 'was not linked by the kit of this copy'
    fi
}

# Where rt runs as root it runs the program as another user, below the folder of temporary files.
chmod 711 "$work"
short=$work/a
long=$work/a_folder_with_a_longer_name
for it in "$short" "$long"; do
    mkdir -m 711 "$it" "$it/tmp" && mkdir "$it/sources" && own_kit "$it/kit" || exit 70
    tar -cf - --exclude=out --exclude=.git . | tar -xf - -C "$it/sources" || exit 70
    [ -n "${ANEW:-}" ] || links "$store" "$it/kit/rattle-kept"
    # (what the first copy had to prove)
    [ -n "${ANEW:-}" ] || [ "$it" = "$short" ] || links "$short/kit/rattle-kept" "$it/kit/rattle-kept"
    builds "$it"
done
for it in $programs; do
    for copy in "$short" "$long"; do
        said=$(compiled "$it" "$copy")
        stored=$(grep -c '^rt: .* is kept: ' "$copy/$it.log")
        proved=$(grep -c '^rt: [a-z_]* proved$' "$copy/$it.log")
        says "$it" "${copy##*/}" "${said:-ok: compiled; stored libraries: $stored, proved crates: $proved}"
    done
    cmp "$short/sources/crates/$it/out/$it" "$long/sources/crates/$it/out/$it" > "$work/said" 2>&1
    quiet "$it" bytes "$work/said"
done
summary
