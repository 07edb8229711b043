#!/usr/bin/env bash
# Runs a Verilog text under a trace by `surf replay`, and by Icarus Verilog and Verilator where they are installed, and
# says whether they print the same reports, and the processor time of each run.
# Usage: tools/compare_text.sh DESCRIPTION TEXT TRACE CYCLES [SURF]
# SURF is the program, `surf` of this checkout where it isn't named. Files go to a folder that is removed at the end.
# Other tools begin with memories of unknown bits, `surf` with 0: a text that shows a memory's first content may differ.
# OPTIMIZE in the environment is the option by which Verilator's C++ is compiled, -O0 where it isn't named. The C++ is
# cut into pieces: whole and with Verilator's own -Os, that of a text of 680,000 bytes takes many minutes.
# The status is 1 where a report differs or Verilator refuses the text.
set -eu
top=$(dirname "$(dirname "$(readlink -f "$0")")")
if [ $# -lt 4 ]; then
  sed -n '2,9s/^# //p' "$0" >&2
  exit 2
fi
description=$(readlink -f "$1") text=$(readlink -f "$2") trace=$(readlink -f "$3") cycles=$4 surf=${5:-$top/surf}
optimize=${OPTIMIZE:--O0}
folder=$(mktemp -d)
trap 'rm -rf "$folder"' EXIT
differ=0
TIMEFORMAT=%U

# The test bench: the words and holds of the trace at the ports of the text's last module.
bench() {
  awk -v cycles="$cycles" -v folder="$folder" '
    FILENAME == ARGV[1] {
      rest = $0
      sub(/#.*/, "", rest)
      while (match(rest, /name *= *"[^"]*"/)) {
        found = substr(rest, RSTART, RLENGTH)
        rest = substr(rest, RSTART + RLENGTH)
        sub(/^[^"]*"/, "", found)
        sub(/"$/, "", found)
        number[found] = names++
      }
      next
    }
    FILENAME == ARGV[2] {
      if (match($0, /^ *module +[a-z][a-zA-Z0-9_]*/)) {
        top = substr($0, RSTART, RLENGTH)
        sub(/^ *module +/, "", top)
        count = 0
      }
      rest = $0
      while (match(rest, /input wire *\[0:0\] *ov_[0-9]+_[0-9]+/)) {
        found = substr(rest, RSTART, RLENGTH)
        rest = substr(rest, RSTART + RLENGTH)
        sub(/.*ov_/, "", found)
        port[count++] = found
      }
      next
    }
    /^[ \t]*(#|$)/ { next }
    {
      at = $2 "_" number[$3]
      if ($4 == "send") {
        for (i = 6; i <= NF; i++) {
          words[at] = words[at] sprintf("%08x%08x%8s%8s\n", $1, i == NF, $5, $i)
          many[at]++
        }
      } else {
        holds[at] = holds[at] sprintf(" || (t >= %d && t < %d)", $1, $1 + $5)
      }
    }
    END {
      print "module bench;\n  reg clk, rst;\n  integer t;"
      for (j = 0; j < count; j++) {
        p = port[j]
        print "  reg ov_" p ", ol_" p ", hr_" p ";\n  reg [31:0] oa_" p ", op_" p ";\n  wire rd_" p ", dr_" p ", ev_" p ", eh_" p ", et_" p ";"
        print "  wire [31:0] ep_" p ";\n  integer at_" p ";\n  reg [127:0] words_" p " [0:" many[p] + 0 "];"
        file = folder "/words_" p ".hex"
        gsub(/ /, "0", words[p])
        printf "%s%s\n", words[p], "ffffffff000000000000000000000000" > file
        close(file)
      }
      print "  " top " dut (.clk(clk), .rst(rst)"
      for (j = 0; j < count; j++) {
        p = port[j]
        split("ov oa op ol hr rd dr ev eh et ep", kinds, " ")
        for (k = 1; k <= 11; k++) print "    , ." kinds[k] "_" p "(" kinds[k] "_" p ")"
      }
      print "  );\n  initial begin\n    clk = 0; rst = 1;"
      for (j = 0; j < count; j++) {
        p = port[j]
        print "    $readmemh(\"" folder "/words_" p ".hex\", words_" p ");"
        print "    at_" p " = 0; ov_" p " = 0; oa_" p " = 0; op_" p " = 0; ol_" p " = 0; hr_" p " = 0;"
      }
      print "    #1 clk = 1; #1 clk = 0; rst = 0;\n    for (t = 0; t < " cycles "; t = t + 1) begin"
      for (j = 0; j < count; j++) {
        p = port[j]
        print "      ov_" p " = at_" p " < " many[p] + 0 " && words_" p "[at_" p "][127:96] <= t;"
        print "      ol_" p " = ov_" p " && words_" p "[at_" p "][64];"
        print "      oa_" p " = ov_" p " ? words_" p "[at_" p "][63:32] : 32\047d0;"
        print "      op_" p " = ov_" p " ? words_" p "[at_" p "][31:0] : 32\047d0;"
        print "      hr_" p " = !(0" holds[p] ");"
      }
      print "      #1;"
      for (j = 0; j < count; j++) {
        p = port[j]
        split(p, parts, "_")
        print "      if (ov_" p " && rd_" p ") $display(\"" parts[2] " %0d " parts[1] " take %08x\", t, op_" p ");"
        print "      if (ov_" p " && !rd_" p ") $display(\"" parts[2] " %0d " parts[1] " wait %08x\", t, op_" p ");"
        print "      if (dr_" p ") $display(\"" parts[2] " %0d " parts[1] " drop\", t);"
        print "      if (ev_" p " && hr_" p ") $display(\"" parts[2] " %0d " parts[1] " got %b%b %08x\", t, eh_" p ", et_" p ", ep_" p ");"
        print "      if (ov_" p " && rd_" p ") at_" p " = at_" p " + 1;"
      }
      print "      #1 clk = 1; #1 clk = 0;\n    end\n    $finish;\n  end\nendmodule"
      for (name in number) print number[name], name > (folder "/names")
    }' "$description" "$text" "$trace" >"$folder/bench.v"
}

# The reports of what a bench printed, domain by domain.
reports() {
  sort -n "$folder/names" | while read -r domain name; do
    echo "domain $name"
    awk -v domain="$domain" '
      $1 == domain && $4 ~ /^(take|wait|drop|got)$/ { count[$4]++; print substr($0, length($1) + 2) }
      END { print "end", count["take"] + 0, count["wait"] + 0, count["drop"] + 0, count["got"] + 0 }' "$1"
  done
}

# Runs what comes after the name of a tool and its output, and says how it went.
run() {
  local tool=$1 out=$2 seconds status=0
  shift 2
  seconds=$({ time "$@" >"$out" 2>"$folder/said"; } 2>&1) || status=$?
  echo "$tool: status $status, $cycles cycles in $seconds s of a processor"
}

# Compares the report of the tool that is named with that of `surf`.
compare() {
  if cmp "$folder/surf.report" "$2"; then
    echo "$1: the same reports"
  else
    differ=1
  fi
}

run surf "$folder/surf.report" "$surf" replay "$description" "$text" "$trace" "$cycles"
bench
if command -v iverilog >/dev/null; then
  iverilog -g2005 -o "$folder/icarus" "$folder/bench.v" "$text"
  run "Icarus Verilog" "$folder/icarus.out" vvp -n "$folder/icarus"
  reports "$folder/icarus.out" >"$folder/icarus.report"
  compare "Icarus Verilog" "$folder/icarus.report"
else
  echo "Icarus Verilog is not installed: skipped"
fi
if command -v verilator >/dev/null; then
  if verilator --binary --timing -Wno-fatal -Wno-lint --output-split 5000 --output-split-cfuncs 500 \
    -MAKEFLAGS "OPT_FAST=$optimize OPT_GLOBAL=$optimize" --build-jobs "$(nproc)" \
    --Mdir "$folder/verilated" --top-module bench "$folder/bench.v" "$text" >"$folder/said" 2>&1; then
    run "Verilator, C++ by $optimize" "$folder/verilator.out" "$folder/verilated/Vbench"
    reports "$folder/verilator.out" >"$folder/verilator.report"
    compare Verilator "$folder/verilator.report"
  else
    tail -n 5 "$folder/said"
    differ=1
  fi
else
  echo "Verilator is not installed: skipped"
fi
exit "$differ"
