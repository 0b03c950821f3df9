#!/bin/bash
# What the command kp adds to its program: bash checks/front.sh
#
# The script kp of this folder is put beside programs that stand for kp, kpview and ./try: installed, as `make install` does, and in a folder of sources. Whatever
# it says on standard error, standard output and the status have to be those of the program, also where standard input is a folder, is closed or is a
# terminal, and where standard output is a file, full or closed. It has to say why a status isn't 0 where standard output is a file, and nothing where it is a
# pipe and standard error a file. The words of its list are those of man/kp.1. Of kpview, where it is built or KPVIEW names it, it is checked what it says of
# files and names that it can't take. The last line is `N checked, M wrong`, and the status is 0 where M is 0.
KP=:
. "$(dirname "$0")/common.sh"
cd "$top" || exit 70

# A program that is asked by the name of a command: it writes what it was given, and ends with the status that its input asks for
mkdir -p "$work/usr/bin" "$work/usr/libexec/kp" "$work/usr/share/kp" "$work/top"
cat > "$work/usr/libexec/kp/kp" << 'END'
#!/bin/sh
case $#:$1 in 1:check | 1:pipe | 1:equiv | 1:timing | 2:sim | 3:gen) ;; *) echo "bad words"; exit 1 ;; esac
[ "$1" != gen ] || { echo "gen $2 $3"; exit; }
input=$(cat 2> /dev/null) || exit 3
[ "$input" ] || { echo "refused E4 1:1"; exit 2; }
printf 'output of %s\n%s\n' "$*" "$input" 2> /dev/null || exit 4
case $input in status*) exit "${input#status}" ;; esac
END
cat > "$work/usr/bin/kpview" << 'END'
#!/bin/sh
shift
text=$(cat)
case $text in *status[26]*) echo "explained $*: $(echo "$text" | wc -l)" >&2; exit 2 ;; esac
END
cp kp "$work/usr/bin/kp"
cp VERSION "$work/usr/share/kp/VERSION"
cp kp VERSION crates.txt "$work/top/"
cat > "$work/top/try" << 'END'
#!/bin/sh
echo "tried $*"
cat
exit 6
END
ln -s ../../bin/kp "$work/usr/share/kp/kp"
chmod 755 "$work/usr/libexec/kp/kp" "$work/usr/bin/kpview" "$work/top/try"
front=$work/usr/share/kp/kp
program=$work/usr/libexec/kp/kp

# is WHAT EXPECTED FOUND
is() {
    if [ "$2" = "$3" ]; then says "$1" front ok; else says "$1" front "has \`$3\` and not \`$2\`"; fi
}

# same WHAT INPUT WORD..: ok where the program and the script write the same bytes to a file, to a pipe, and have the same status
same() {
    local what=$1 input=$2 status
    shift 2
    "$program" "$@" < "$input" > "$work/one" 2> /dev/null
    status=$?
    "$front" "$@" < "$input" > "$work/other" 2> "$work/said"
    is "$what" "$status" $?
    cmp "$work/one" "$work/other" > "$work/differs" 2>&1
    quiet "$what" file "$work/differs"
    "$front" "$@" < "$input" 2> "$work/silent" | cmp - "$work/one" > "$work/differs" 2>&1
    is "$what" "$status" "${PIPESTATUS[0]}"
    quiet "$what" pipe "$work/differs"
}

# has WHAT TEXT: whether this was said
said() { if grep -qF -- "$2" "$work/said"; then says "$1" says ok; else says "$1" says "not \`$2\` but \`$(head -n 1 "$work/said")\`"; fi; }

for it in 0 2 5 6 7; do printf 'status%s' $it > "$work/status$it"; done
same success "$work/status0" check
quiet success silence "$work/said"
same rejected "$work/status2" check
said rejected 'explained : 1'
said rejected "$work/other"
quiet rejected silence "$work/silent"
same verilog "$work/status6" equiv
said verilog 'explained : 1'
same late "$work/status7" sim 10
quiet late silence "$work/said"
same memory "$work/status5" pipe
said memory 'out of memory'
same words "$work/status0" sim ten 10
said words 'usage: kp COMMAND'
quiet words silence "$work/silent"
same operand "$work/status0" check "$work/status2"
said operand "'< $work/status2' reads this file"
same nothing "$work/status0"
said nothing 'usage: kp COMMAND'
same generated "$work/status0" gen 1 10
printf 'a job end\nstatus2 a module' > "$work/status2 more"
same timing "$work/status2 more" timing
same folder "$work" check
said folder "standard input is the folder $work"
grep -q 'is the folder' "$work/silent" || says folder pipe 'says nothing'

# Standard output that takes nothing, and standard input that is closed
"$front" pipe < "$work/status0" > /dev/full 2> "$work/said"
is full 4 $?
said full 'writing standard output failed: it is /dev/full'
"$front" check <&- > "$work/other" 2> "$work/said"
status=$?
"$program" check <&- > "$work/one" 2> /dev/null
is closed $? $status
cmp "$work/one" "$work/other" > "$work/differs" 2>&1
quiet closed file "$work/differs"

# A terminal
if has script; then
    script -qec "'$front' check < '$work/status2'" /dev/null < /dev/null > "$work/said"
    is terminal 2 $?
    said terminal 'explained : 1'
    printf 'status0\n\004' | timeout 20 script -qec "'$front' check" /dev/null > "$work/said"
    said terminal 'check reads standard input, which is the terminal'
fi

# What it answers itself
is version "kp $(cat VERSION)" "$("$front" --version)"
is version "kp $(cat VERSION)" "$("$work/top/kp" -V)"
is help "$("$front" --help)" "$("$front" -h)"
"$front" --help > "$work/said"
said help 'usage: kp COMMAND'
is list "$(sed -n 's/^  \([a-z]*\) .*/\1/p' "$work/said" | xargs)" "$(sed -n '/^The commands are/,/^\.Sh/s/^\.It Cm \([a-z]*\).*/\1/p' man/kp.1 | xargs)"

# Where the program isn't built: the trial run, with its output and its status
"$work/top/kp" sim 3 < "$work/status0" > "$work/other" 2> "$work/said"
is trial 6 $?
is trial "tried sim 3 status0" "$(xargs < "$work/other")"
said trial 'not proved yet'
rm "$program"
"$front" check < "$work/status0" > "$work/other" 2> "$work/said"
is missing 70 $?
said missing 'install kp again'

# kpview, where it is built: a file that can't be read and a word that can't be the name of a stage are named, and `-` is standard input
kpview=${KPVIEW:-crates/kpview/out/kpview}
if has "$kpview"; then
    # refuses STATUS TEXT WORD..
    refuses() {
        local status=$1 text=$2
        shift 2
        "$kpview" "$@" < examples/acc3.kp > "$work/other" 2> "$work/said"
        is "kpview $1" "$status" $?
        said "kpview $1" "$text"
    }
    refuses 3 "kpview: $work/none: there is no such file" diagram 5 "$work/none"
    refuses 3 "kpview: $work/top: it is a folder" stalls 5 "$work/top"
    refuses 1 'kpview: WRITEBACK: the name of a stage has 1 to 8 letters, digits or `_`' svg 5 READ ADD WRITEBACK examples/acc3.kp
    is 'kpview -' "$("$kpview" paths examples/acc3.kp)" "$("$kpview" paths - < examples/acc3.kp)"
fi
summary
