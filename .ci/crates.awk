# Of crates.txt the crate `top` and the crates of the repository below it, a name in each line:
#
#     awk -v top=kp -f .ci/crates.awk crates.txt
{ sub(/#.*/, "") }
/[^ ]/ {
    split($0, part, ":")
    split(part[1], head, " ")
    uses[head[1]] = part[2]
}
function reach(name,    words, i) {
    if (name in reached) return
    reached[name] = 1
    print name
    split(uses[name], words, " ")
    for (i = 1; i in words; i++)
        if (words[i] in uses) reach(words[i])
}
END { reach(top) }
