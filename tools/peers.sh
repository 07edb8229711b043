#!/usr/bin/env bash
# Compiles a description and says what other tools say of the text: Icarus Verilog, Yosys and Verilator read it, Yosys
# counts its cells, and under each trace that is named Icarus Verilog and Verilator run it, whose reports are compared
# with `surf`'s.
# Usage: tools/peers.sh [DESCRIPTION [TRACE CYCLES]..]
# Without words it takes the descriptions of examples/ with their traces. SURF in the environment names another program
# `surf`, and SYNTH=no leaves the count out. A tool that isn't installed is skipped. The status is 1 where a tool warned
# of a text (for Verilator: of more than DECLFILENAME and UNUSEDSIGNAL) or a report differs.
set -eu
top=$(dirname "$(dirname "$(readlink -f "$0")")")
surf=${SURF:-$top/surf}
folder=$(mktemp -d)
trap 'rm -rf "$folder"' EXIT
findings=0

finding() {
  findings=$((findings + 1))
  echo "FINDING: $1"
}

# Whether the tool is installed, and a line where it isn't.
has() {
  command -v "$1" >/dev/null || {
    echo "$1 is not installed: skipped"
    return 1
  }
}

# What Icarus Verilog, Yosys and Verilator say of a text.
read_by_all() {
  local text=$1 said=$folder/said
  if has iverilog; then
    iverilog -Wall -g2005 -o /dev/null "$text" >"$said" 2>&1 || true
    if [ -s "$said" ]; then
      head -n 5 "$said"
      finding "Icarus Verilog says $(wc -l <"$said") lines"
    else
      echo "Icarus Verilog -Wall: no warning"
    fi
  fi
  if has yosys; then
    yosys -p "read_verilog $text; hierarchy -check -top noc; proc; check -assert" >"$said" 2>&1 || echo "ERROR" >>"$said"
    if grep -q -i -E 'warning|error' "$said"; then
      grep -i -E 'warning|error' "$said" | head -n 5
      finding "Yosys warns"
    else
      echo "Yosys: no warning, $(sed -n 's/^Found and reported //p' "$said" | tr -d .)"
    fi
  fi
  if has verilator; then
    verilator --lint-only -Wall --top-module noc "$text" >"$said" 2>&1 || true
    sed -n 's/^%\(Warning-[A-Z0-9]*\).*/\1/p' "$said" | sort | uniq -c | sed 's/^ */Verilator -Wall: /'
    if grep -E '^%' "$said" | grep -v -q -E '^%Warning-(DECLFILENAME|UNUSEDSIGNAL)|^%Error: Exiting due to'; then
      grep -E '^%' "$said" | grep -v -E '^%Warning-(DECLFILENAME|UNUSEDSIGNAL)|^%Error: Exiting due to' | head -n 3
      finding "Verilator says more than DECLFILENAME and UNUSEDSIGNAL"
    fi
  fi
}

# What Yosys makes of a text: its cells, by kind.
count_cells() {
  [ "${SYNTH:-yes}" = yes ] && has yosys || return 0
  yosys -p "read_verilog $1; synth -top noc -flatten -run begin:fine; tee -o $folder/coarse stat
    synth -top noc -flatten -run fine:; tee -o $folder/fine stat" >"$folder/said" 2>&1 || {
    finding "yosys synth fails"
    return 0
  }
  awk '$1 ~ /^\$mem/ { memories += $NF }
    /Number of cells:/ { cells = $NF }
    $1 ~ /^\$_S?DFF/ { bits += $NF }
    END { printf "yosys synth: %d memories, or as cells %d, of which %d flip-flops\n", memories, cells, bits }' \
    "$folder/coarse" "$folder/fine"
}

# Runs a text under a trace by all, and compares the reports.
run_by_all() {
  local description=$1 text=$2 trace=$3 cycles=$4
  echo "-- $(basename "$trace"), $cycles cycles"
  "$surf" simulate "$description" "$trace" "$cycles" >"$folder/simulated"
  "$surf" replay "$description" "$text" "$trace" "$cycles" >"$folder/replayed"
  if cmp "$folder/simulated" "$folder/replayed"; then
    echo "surf replay: the report of surf simulate"
  else
    finding "surf replay and surf simulate differ"
  fi
  "$top/tools/compare_text.sh" "$description" "$text" "$trace" "$cycles" "$surf" >"$folder/said" 2>&1 || finding "a report differs"
  cat "$folder/said"
}

# A description, and pairs of a trace and a number of cycles.
judge() {
  local description=$1
  local text
  shift
  text=$folder/$(basename "$description" .toml).v
  echo "== $(basename "$description")"
  "$surf" compile "$description" >"$text"
  echo "$(wc -c <"$text") bytes, $(grep -c '^module' "$text") modules"
  read_by_all "$text"
  count_cells "$text"
  while [ $# -ge 2 ]; do
    run_by_all "$description" "$text" "$1" "$2"
    shift 2
  done
}

if [ $# -gt 0 ]; then
  judge "$@"
else
  of=$top/examples
  judge "$of/one-tile.toml" "$of/one-word.trace" 20 "$of/deaf-reader.trace" 40 "$of/wrong-address.trace" 20
  judge "$of/two-tiles.toml"
  judge "$of/shared-link.toml" "$of/meet.trace" 40 "$of/crowded-by-b.trace" 60
  judge "$of/weighted-slots.toml"
  judge "$of/row-of-five.toml"
  judge "$of/ring-of-four.toml" "$of/round-the-ring.trace" 100
  judge "$of/cube.toml" "$of/across-the-cube.trace" 40
  judge "$of/torus.toml" "$of/torus.trace" 100
  SYNTH=no judge "$of/shared-corners.toml" "$of/crowded.trace" 400
fi
echo "$findings findings"
[ "$findings" = 0 ]
