#!/usr/bin/env bash
# Compares the and-inverter form of a description with what Yosys makes of its compiled text: how many gates each has,
# what ABC's dc2 leaves of the form, and whether ABC's dsec finds the two equal over all runs from reset.
# Usage: tools/compare_form.sh [DESCRIPTION..]
# Without words it takes examples/shared-link.toml and weighted-slots.toml, and shared-link with one domain a tile. SURF
# in the environment names another program `surf`, ABC another program `abc`. A tool that isn't installed is skipped.
# The status is 1 where the two differ, where the form has more gates than Yosys' or more than 1.3 times what dc2
# leaves, or where ABC finds no end in 300 seconds. Yosys keeps registers without enables and resets here, as a form has
# them: what chooses between a register's values is gates in both.
set -eu
top=$(dirname "$(dirname "$(readlink -f "$0")")")
surf=${SURF:-$top/surf}
abc=${ABC:-$(command -v abc || command -v berkeley-abc || command -v yosys-abc || true)}
folder=$(mktemp -d)
trap 'rm -rf "$folder"' EXIT
findings=0
TIMEFORMAT=%R

finding() {
  findings=$((findings + 1))
  echo "FINDING: $1"
}

# A written text as the form has it: no reset, but registers that begin at their reset constants.
started() {
  sed -E 's/^( *)always @\(posedge clk\) if \(rst\) ([A-Za-z0-9_]+) <= ([^;]*); else /\1initial \2 = \3;\n\1always @(posedge clk) /' "$1"
}

# The bits of the top's ports that go a way, in order, as BLIF names them.
port_bits() {
  awk -v way="$2" '
    /^module / { inside = ($2 ~ /^noc/) }
    inside {
      rest = $0
      while (match(rest, way " wire \\[[0-9]+:0\\] [a-z][a-zA-Z0-9_]*")) {
        split(substr(rest, RSTART, RLENGTH), word, " ")
        rest = substr(rest, RSTART + RLENGTH)
        high = substr(word[3], 2) + 0
        for (i = 0; i <= high; i++) print high ? word[4] "[" i "]" : word[4]
      }
    }' "$1"
}

# A form as BLIF, with the names of the text's ports.
blif() {
  awk '
    function named(x) { return x < 2 ? (x ? "one" : "zero") : (x % 2 ? "not_" : "") name[int(x / 2)] }
    FILENAME == ARGV[1] { inputs[++ins] = $1; next }
    FILENAME == ARGV[2] { outputs[++outs] = $1; next }
    FNR == 1 {
      i = $3; l = $4; o = $5; a = $6
      for (k = 1; k <= i; k++) name[k] = inputs[k]
      for (k = i + 1; k <= $2; k++) name[k] = "v" k
      print ".model noc"
      printf ".inputs"; for (k = 1; k <= i; k++) printf " %s", inputs[k]
      printf "\n.outputs"; for (k = 1; k <= o; k++) printf " %s", outputs[k]
      print "\n.names zero\n.names one\n1"
      for (k = 1; k <= $2; k++) print ".names " name[k] " not_" name[k] "\n0 1"
      next
    }
    FNR <= 1 + i { next }
    FNR <= 1 + i + l { print ".latch " named($2) " " named($1) " 0"; next }
    FNR <= 1 + i + l + o { print ".names " named($1) " " outputs[FNR - 1 - i - l] "\n1 1"; next }
    { print ".names " named($2) " " named($3) " " named($1) "\n11 1" }
    END { print ".end" }' "$2" "$3" "$1"
}

compare() {
  local description=$1 seconds ours theirs least
  echo "== $(basename "$description")"
  "$surf" compile "$description" >"$folder/text.v"
  seconds=$({ time "$surf" aiger "$description" >"$folder/form.aag"; } 2>&1)
  ours=$(sed -n '1s/.* //p' "$folder/form.aag")
  echo "surf: $(head -n 1 "$folder/form.aag"), written in $seconds s"
  if command -v yosys >/dev/null; then
    started "$folder/text.v" >"$folder/started.v"
    if grep -q 'if (rst)' "$folder/started.v"; then
      finding "a reset stands in a form that this script doesn't know"
      return
    fi
    yosys -q -p "read_verilog $folder/started.v; hierarchy -check -top noc; proc; flatten; memory -nordff
      opt -nodffe -nosdff; techmap; opt -nodffe -nosdff; setundef -undriven -init -zero; aigmap; opt_clean
      tee -q -o $folder/count stat; write_blif $folder/yosys.raw" >"$folder/said" 2>&1 || {
      tail -n 3 "$folder/said"
      finding "Yosys doesn't read the text"
      return
    }
    theirs=$(awk '/\$_AND_/ { for (k = 1; k <= NF; k++) if ($k ~ /^[0-9]+$/) print $k }' "$folder/count" | tail -n 1)
    echo "Yosys' opt; aigmap: ${theirs:-0} gates"
    [ "$ours" -le "${theirs:-0}" ] || finding "the form has more gates than Yosys'"
  else
    echo "yosys is not installed: skipped"
  fi
  if [ -z "$abc" ]; then
    echo "abc is not installed: skipped"
    return
  fi
  port_bits "$folder/text.v" input >"$folder/inputs"
  port_bits "$folder/text.v" output >"$folder/outputs"
  blif "$folder/form.aag" "$folder/inputs" "$folder/outputs" >"$folder/form.blif"
  "$abc" -q "read_blif $folder/form.blif; strash; dc2; print_stats" >"$folder/said" 2>&1
  least=$(sed -n 's/.* and = *\([0-9]*\).*/\1/p' "$folder/said" | tail -n 1)
  echo "ABC's dc2 leaves ${least:-nothing that it counts}"
  [ -z "$least" ] || [ $((ours * 10)) -le $((least * 13)) ] || finding "more than 1.3 times what dc2 leaves"
  if [ -f "$folder/yosys.raw" ]; then
    # ABC has one clock: the names of clock and reset go.
    sed -E '/^\.inputs/ s/ (clk|rst)\b//g; s/^(\.latch [^ ]+ [^ ]+) re clk/\1/' "$folder/yosys.raw" >"$folder/yosys.blif"
    timeout 300 "$abc" -q "dsec $folder/form.blif $folder/yosys.blif" >"$folder/said" 2>&1 || true
    if grep -q -i "are equivalent" "$folder/said"; then
      echo "ABC's dsec: equal to Yosys' form of the text"
    else
      tail -n 3 "$folder/said"
      finding "ABC does not find the forms equal"
    fi
    rm "$folder/yosys.raw"
  fi
}

if [ $# -eq 0 ]; then
  sed 's/^tile = .*/tile = [{at = 0, domains = ["a"]}, {at = 1, domains = ["b"]}]/
    s/^range = .*/range = [{tile = 1, first = 0x100, last = 0x1ff}]/' "$top/examples/shared-link.toml" >"$folder/split.toml"
  set -- "$top/examples/shared-link.toml" "$folder/split.toml" "$top/examples/weighted-slots.toml"
fi
for description in "$@"; do
  compare "$(readlink -f "$description")"
done
[ "$findings" = 0 ]
