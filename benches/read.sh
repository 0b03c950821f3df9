#!/bin/sh
# Reads Verilog texts of nearly 16 MiB, and prints the seconds and the memory of each: sh benches/read.sh
#
# One has as many small wires as fit, one wires of concatenations of 12 names, one a file of 65,536 words that are filled again and again,
# and one is nearly all comments. Each denotes a netlist. Then three that violate a rule: a wire at the end
# that isn't declared, a wire that is assigned again by each of 700,000 lines, and a literal with a million digits. KP names another program than ./kp.
set -eu
. "$(dirname "$0")/../checks/common.sh"

# a module with the lines of standard input among its items; $1 is declared, $2 stands under initial
around() {
    echo 'module m_big(input wire clk, input wire [1:0] ext, output wire [1:0] full, output wire [1:0] ue, output wire [3:0] back);'
    echo '  reg [3:0] r_X;'
    [ -z "${1:-}" ] || echo "$1"
    printf '  wire [3:0] n0;\n  assign n0 = r_X;\n  wire [1:0] n1;\n  assign n1 = ext;\n'
    cat
    printf '  assign full = n1;\n  assign ue = n1;\n  assign back = n0;\n  initial begin\n    r_X = 4%sh0;\n' "'"
    [ -z "${2:-}" ] || cat "$2"
    printf '  end\n  always @(posedge clk) begin\n    r_X <= n0;\n  end\nendmodule\n'
}
awk 'BEGIN { for (i = 2; i < 300000; i++) printf "  wire [3:0] n%d;\n  assign n%d = n%d + n0;\n", i, i, (i > 2 ? i - 1 : 0) }' | around > "$work/wires"
awk 'BEGIN { for (i = 2; i < 150000; i++) printf "  wire [47:0] n%d;\n  assign n%d = {n0, n0, n0, n0, n0, n0, n0, n0, n0, n0, n0, n0};\n", i, i }' |
    around > "$work/concatenations"
awk 'BEGIN { q = sprintf("%c", 39); printf "    for (i = 0; i < 65536; i = i + 1) f_M[i] = 32%sh00000000;\n", q
    for (i = 0; i < 520000; i++) printf "    f_M[%d] = 32%sh%08x;\n", i % 65536, q, i }' > "$work/filled"
around "  reg [31:0] f_M [0:65535];
  integer i;" "$work/filled" < /dev/null > "$work/words"
awk 'BEGIN { for (i = 0; i < 185000; i++) print "  // a line of which nothing is read, as long as comments are in texts that people write" }' | around > "$work/comments"
{ sed '$d' "$work/wires" | sed '$d' | sed '$d'; printf '    r_X <= n999999;\n  end\nendmodule\n'; } > "$work/undeclared"
awk 'BEGIN { for (i = 0; i < 700000; i++) print "  assign n1 = ext;" }' | around > "$work/again"
{ printf '  wire [3:0] n2;\n  assign n2 = 4%sh' "'"; awk 'BEGIN { for (i = 0; i < 1000000; i++) printf "1" }'; echo ';'; } | around > "$work/digits"

for text in wires concatenations words comments undeclared again digits; do
    measured "read of $text, $(wc -c < "$work/$text") bytes" "$kp" read < "$work/$text" > "$work/written" || true
    [ "$(wc -c < "$work/written")" -gt 100 ] || cat "$work/written"
done
