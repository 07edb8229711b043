#!/usr/bin/env bash
# Times the reading and the judging of a Verilog text of about 7 MB: what `surf compile` writes for a torus of 4 by 13
# tiles that three domains share. Usage: tools/read_speed.sh [SURF]
# SURF is the program, `surf` of this checkout where it isn't named. Prints the text's size, and the processor seconds
# of the fastest of five runs that read the text and meet a token too many behind its end, of five that read it and
# judge it by all rules (and then find other ports than those of one tile), and of five that audit it; and what a run
# says that reads and judges with an address space of 60 times the text's bytes. Then the same for reading and judging
# a leaf of 50,000 and of 100,000 wires, each assigned from the one before, and one of 5,000 and of 10,000 expressions
# that are 199 deep; and how long Icarus Verilog, Verilator and Yosys read the first text, where they are installed.
set -eu
top=$(dirname "$(dirname "$(readlink -f "$0")")")
surf=${1:-$top/surf}
folder=$(mktemp -d)
trap 'rm -rf "$folder"' EXIT
TIMEFORMAT="%U %S"

awk 'BEGIN {
  print "version = 1\nshape = \"torus\"\ndims = [4, 13]\nstages = 1\nbuffer = 4"
  for (d = 0; d < 3; d++) printf "[[domain]]\nname = \"d%d\"\nchannels = 2\n", d
  for (n = 0; n < 52; n++) printf "[[tile]]\nat = %d\ndomains = [\"d0\", \"d1\", \"d2\"]\n", n
  for (n = 0; n < 52; n++) printf "[[range]]\ntile = %d\nfirst = %d\nlast = %d\n", n, 256 * n, 256 * n + 255
}' >"$folder/torus.toml"
"$surf" compile "$folder/torus.toml" >"$folder/whole.v"
{
  cat "$folder/whole.v"
  echo "endmodule"
} >"$folder/more.v"
size=$(wc -c <"$folder/whole.v")
echo "$size bytes"

# The processor seconds of the fastest of five runs with these words, and what the run said.
fastest() {
  local what=$1 best="" seconds
  shift
  for _ in 1 2 3 4 5; do
    seconds=$({ time "$surf" "$@" >"$folder/said" 2>&1 || true; } 2>&1 | awk '{ print $1 + $2 }')
    best=$(printf '%s\n%s\n' "${best:-$seconds}" "$seconds" | sort -n | head -n 1)
  done
  echo "$what: $best s: $(tail -n 1 "$folder/said")"
}

fastest "read" audit "$folder/torus.toml" "$folder/more.v"
fastest "read and judged" audit "$top/examples/one-tile.toml" "$folder/whole.v"
fastest "audited" audit "$folder/torus.toml" "$folder/whole.v"
(
  ulimit -v $((60 * size / 1024))
  "$surf" audit "$top/examples/one-tile.toml" "$folder/whole.v" >"$folder/said" 2>&1 || true
)
echo "within 60 times its bytes: $(tail -n 1 "$folder/said")"

# A leaf of so many wires, each assigned from the one before.
chain() {
  awk -v count="$1" 'BEGIN {
    print "module r_0 (input wire clk, input wire rst, output wire [0:0] q_0);"
    print "  wire [0:0] w_0;\n  assign w_0 = 1'"'"'d1;"
    for (k = 1; k < count; k++) printf "  wire [0:0] w_%d;\n  assign w_%d = w_%d;\n", k, k, k - 1
    printf "  assign q_0 = w_%d;\nendmodule\nmodule noc (input wire clk, input wire rst);\nendmodule\n", count - 1
  }'
}

# A leaf of so many wires, each of an expression that is 199 deep.
deep() {
  awk -v count="$1" 'BEGIN {
    for (k = 0; k < 198; k++) { open = open "(~"; close_all = close_all ")" }
    print "module r_0 (input wire clk, input wire rst);"
    for (k = 0; k < count; k++) printf "  wire [0:0] w_%d;\n  assign w_%d = %s1'"'"'d1%s;\n", k, k, open, close_all
    print "endmodule\nmodule noc (input wire clk, input wire rst);\nendmodule"
  }'
}

for count in 50000 100000; do
  chain "$count" >"$folder/made.v"
  fastest "a chain of $count wires, $(wc -c <"$folder/made.v") bytes" \
    audit "$top/examples/one-tile.toml" "$folder/made.v"
done
for count in 5000 10000; do
  deep "$count" >"$folder/made.v"
  fastest "$count deep expressions, $(wc -c <"$folder/made.v") bytes" \
    audit "$top/examples/one-tile.toml" "$folder/made.v"
done

# The processor seconds that another tool takes to read the first text, once.
peer() {
  local what=$1
  shift
  if command -v "$1" >/dev/null; then
    echo "$what: $({ time "$@" >/dev/null 2>&1 || true; } 2>&1 | awk '{ print $1 + $2 }') s"
  else
    echo "$what is not installed: skipped"
  fi
}

peer "Icarus Verilog" iverilog -g2005 -t null "$folder/whole.v"
peer "Verilator" verilator --lint-only -Wno-fatal --top-module noc "$folder/whole.v"
peer "Yosys" yosys -q -p "read_verilog $folder/whole.v"
