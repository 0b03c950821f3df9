#!/bin/bash
# Reads what `kpview explain` prints as editors do: bash checks/editors.sh
#
# The messages are those that the cases of `explain` in kp_test_cases expect. Each must be found, with its file, line, column, kind and rule, and nothing else:
# by the regular expression of docs/KPVIEW.md, which editors/vscode/package.json has too, and by Vim with editors/vim/compiler/kpview.vim. The quickfix list of
# Vim has to have each line of help too. Vim indents each job of examples/ as it stands there, has a fold for each of its stages, and knows the types of jobs,
# programs and lines of ports. With :compiler kpcore the list has the messages of kpcore and nothing of the module. The grammars for VS Code have to have a
# pattern for each token of the examples. Where Vim isn't installed, the other parts alone are tried.
#
# The last line is `N checked, M wrong`, and the status is 0 where M is 0.
set -u
top=$(cd "$(dirname "$0")/.." && pwd) || exit 70
work=$(mktemp -d) || exit 70
trap 'rm -rf "$work"' EXIT
printed=$work/printed
awk '/^==== / { is_explain = /^==== explain .*gives / && !/ (-h|--help) gives / } is_explain' "$top/crates/kp_test_cases/stdout" > "$printed"
checked=0
wrong=0
missing=

# the lines of Vim's quickfix list, in the form of the expected ones
if command -v vim > /dev/null && vim --version | grep -q '+quickfix'; then
    vim -N -u NONE -i NONE -n -es --cmd "set runtimepath^=$top/editors/vim" --cmd 'compiler! kpview' -q "$printed" \
        -c "call writefile(map(filter(getqflist(), 'v:val.valid'), 'bufname(v:val.bufnr) . \" \" . v:val.lnum . \" \" . v:val.col . \" \" . tolower(v:val.type) . \" \" . split(v:val.text, \":\")[0]'), '$work/vim')" \
        -c "call writefile(map(filter(getqflist(), 'v:val.valid'), 'join(split(v:val.text, \"\\n\")[1:])'), '$work/help')" \
        -c 'qa!' > /dev/null 2>&1 < /dev/null
    cat > "$work/tries.vim" << 'END'
" What Vim says of the file: its type and its syntax, its number of folds, the words that it marks as wrong, and its lines, indented anew
function! Said(to) abort
  let l:wrong = []
  for l:line in range(1, line('$'))
    for l:column in range(1, col([l:line, '$']) - 1)
      if synIDattr(synID(l:line, l:column, 1), 'name') =~# 'Wrong$'
        call add(l:wrong, l:line . ':' . l:column)
      endif
    endfor
  endfor
  set foldlevel=0
  let l:folds = len(filter(range(1, line('$')), 'foldclosed(v:val) == v:val'))
  normal! gg=G
  call writefile([&filetype . ' ' . get(b:, 'current_syntax', ''), l:folds, join(l:wrong)] + getline(1, '$'), a:to)
endfunction
END
    # is WHAT EXPECTED FOUND
    is() {
        checked=$((checked + 1))
        [ "$2" = "$3" ] && return
        wrong=$((wrong + 1))
        echo "$1: has \`$3\` and not \`$2\`"
    }
    # opened FILE TYPE WRONG: what Vim says of a file that a user opens: its type, its folds, its layout, and which words are wrong
    opened() {
        rm -f "$work/said"
        vim -N -u NONE -i NONE -n -es --cmd "set runtimepath^=$top/editors/vim" --cmd 'let g:kp_folding = 1' --cmd 'filetype plugin indent on' \
            --cmd 'syntax on' -S "$work/tries.vim" -c "call Said('$work/said')" -c 'qa!' "$1" > /dev/null 2>&1 < /dev/null
        is "type of $1" "$2 $2" "$(sed -n 1p "$work/said")"
        is "words of $1" "$3" "$(sed -n 3p "$work/said")"
        [ "$2" = kp ] || return
        is "folds of $1" "$(awk '/^(stage|image|stalls|inputs).*{ *(\/\/.*)?$/ { open = 1 } /^}/ { folds += open; open = 0 } END { print folds + 0 }' "$1")" \
            "$(sed -n 2p "$work/said")"
        is "layout of $1" '' "$(sed 1,3d "$work/said" | diff "$1" - | sed -n 2p)"
    }
    for it in "$top"/examples/*.kp "$top"/examples/*/*.kp "$top"/examples/*/*.ports; do opened "$it" kp ''; done
    for it in "$top"/examples/*.dlx; do opened "$it" kpdlx ''; done
    printf "reg X : 8 = 8'h_1;\n" > "$work/wrong.kp"
    opened "$work/wrong.kp" kp '1:13 1:14 1:15 1:16 1:17'
    printf 'loop: add r1, r2, r3 ; a sum\nmov r1, r32\nbnez r1, loop\n' > "$work/wrong.dlx"
    opened "$work/wrong.dlx" kpdlx '2:1 2:2 2:3 2:9 2:10 2:11'
    printf '#!/bin/sh\necho module\necho "$1:3:5: error P2: no register has this name" >&2\n' > "$work/kpcore"
    chmod 755 "$work/kpcore"
    echo end > "$work/my core.kp"
    (cd "$work" && PATH="$work:$PATH" vim -N -u NONE -i NONE -n -es --cmd "set runtimepath^=$top/editors/vim" -c 'compiler kpcore' -c 'silent make!' \
        -c "call writefile(map(getqflist(), 'bufname(v:val.bufnr) . \":\" . v:val.lnum . \":\" . v:val.col . \":\" . v:val.text'), 'made')" -c 'qa!' 'my core.kp') > /dev/null 2>&1 < /dev/null
    is 'messages of kpcore' 'my core.kp:3:5:P2: no register has this name' "$(cat "$work/made")"
else
    missing=vim
fi

# The pattern, and the lines of help
python3 - "$printed" "$top" "$work" > "$work/patterns" << 'END'
import glob, json, re, sys
printed, top, work = sys.argv[1:]
lines = open(printed, encoding="latin-1").read().split("\n")
# A message is a block of lines without an empty one, in the output of a case with status 0 or 2; its first line has file, line, column, kind and rule
expected, case, head = [], False, False
for line in lines:
    if line.startswith("==== "):
        case, head = re.search(r" gives [02]$", line) is not None, True
    elif line == "":
        head = True
    elif case and head:
        place, kind, rest = line.split(" ")[:3]
        name, row, column = place.rstrip(":").rsplit(":", 2)
        expected.append(f"{name} {row} {column} {kind[0]} {rest.rstrip(':')}")
        head = False
open(f"{work}/expected", "w").write("".join(it + "\n" for it in expected))
pattern = re.search(r"^    (\^.*\$)$", open(f"{top}/docs/KPVIEW.md").read(), re.M)
rule = re.compile(pattern.group(1)) if pattern else None
package = json.load(open(f"{top}/editors/vscode/package.json"))["contributes"]
if [it["pattern"]["regexp"] for it in package["problemMatchers"]] != [rule and rule.pattern]:
    print("package.json has another pattern than KPVIEW.md")
    rule = None
found = [f"{m[1]} {m[2]} {m[3]} {m[4][0]} {m[5]}" for m in map(rule.match, lines) if m] if rule else []
open(f"{work}/expression", "w").write("".join(it + "\n" for it in found))
# The lines of help of each message
helps = []
for line in lines:
    if rule and rule.match(line):
        helps.append([])
    elif m := re.match(" += (.*)", line):
        helps[-1].append(m[1])
open(f"{work}/helped", "w").write("".join(" ".join(it) + "\n" for it in helps))

# The grammars: each token of an example is a match of a pattern, the first that begins at its place, and no token is an illegal one
for it in package["grammars"]:
    grammar = json.load(open(f"{top}/editors/vscode/{it['path']}"))
    rules = [(p["name"], re.compile(p["match"])) for p in grammar["patterns"]]
    for file in [f for kind in grammar["fileTypes"] for f in sorted(glob.glob(f"{top}/examples/**/*.{kind}", recursive=True))]:
        for number, line in enumerate(open(file).read().split("\n"), 1):
            at = 0
            while at < len(line):
                name, end = next(((n, m.end()) for n, r in rules if (m := r.match(line, at)) and m.end() > at), ("", at + 1))
                if name.startswith("invalid") or not (name or line[at] in " \t\r;:,(){}[]"):
                    print(f"{file}:{number}:{at + 1}: {name or 'no pattern'}")
                at = end
END

# compare WHO: whether it found the expected messages
compare() {
    local count
    count=$(wc -l < "$work/expected")
    checked=$((checked + count))
    if cmp -s "$work/expected" "$work/$1"; then
        echo "$1: $count messages ok"
    else
        wrong=$((wrong + $(diff "$work/expected" "$work/$1" | grep -c '^[<>]')))
        diff "$work/expected" "$work/$1" | head -n 5
    fi
}

compare expression
if [ -z "$missing" ]; then
    compare vim
    is 'lines of help' '' "$(diff "$work/helped" "$work/help" | sed -n 2p)"
fi
checked=$((checked + 1))
wrong=$((wrong + $(wc -l < "$work/patterns")))
cat "$work/patterns"
echo "$checked checked, $wrong wrong${missing:+; not installed: $missing}"
[ "$wrong" -eq 0 ] && [ "$checked" -gt 0 ]
