#!/usr/bin/env bash
# Times `surf replay` of a Verilog text under a trace: reading and judging it, and how many cycles a second then run.
# Usage: tools/replay_speed.sh DESCRIPTION TEXT TRACE CYCLES [SURF]
# SURF is the program, `surf` of this checkout where it isn't named. Times are processor time, the best of three runs.
# Where Icarus Verilog or Verilator is installed, tools/compare_text.sh then runs the same cycles by it.
set -eu
top=$(dirname "$(dirname "$(readlink -f "$0")")")
if [ $# -lt 4 ]; then
  sed -n '2,5s/^# //p' "$0" >&2
  exit 2
fi
description=$1 text=$2 trace=$3 cycles=$4 surf=${5:-$top/surf}
TIMEFORMAT=%U

# The seconds of the fastest of three runs of so many cycles.
fastest() {
  local best="" seconds
  for _ in 1 2 3; do
    seconds=$({ time "$surf" replay "$description" "$text" "$trace" "$1" >/dev/null; } 2>&1)
    best=$(printf '%s\n%s\n' "${best:-$seconds}" "$seconds" | sort -n | head -n 1)
  done
  echo "$best"
}

# Once before all times, so that the program is built and an error is shown.
"$surf" replay "$description" "$text" "$trace" 0 >/dev/null

read_in=$(fastest 0)
ran_in=$(fastest "$cycles")
echo "$(wc -c <"$text") bytes are read and judged in $read_in s, $cycles cycles run in $ran_in s with it"
awk -v cycles="$cycles" -v first="$read_in" -v all="$ran_in" \
  'BEGIN {
    if (all > first) printf "%d cycles a second\n", cycles / (all - first)
    else print "too few cycles to say how many a second"
  }'

if command -v iverilog >/dev/null || command -v verilator >/dev/null; then
  "$top/tools/compare_text.sh" "$description" "$text" "$trace" "$cycles" "$surf"
else
  echo "Icarus Verilog and Verilator are not installed: skipped"
fi
