#!/usr/bin/env bash
# Times `surf check` on the largest descriptions: 256 tiles, 16 domains, names of 16 bytes, 1,024 ranges, and comments
# up to the limit of a description. Builds the program where it is missing, as `surf` does.
# Prints a line for each: what it has, its bytes, the seconds of the fastest of five runs, the status, and what surf
# said.
set -eu
top=$(dirname "$(dirname "$(readlink -f "$0")")")
program=$top/crates/surf/out/surf
folder=$(mktemp -d)
trap 'rm -rf "$folder"' EXIT
TIMEFORMAT=%R

# A description of about a megabyte. Each tile hosts so many of the domains in turn; of so many ranges, one for each
# address, the last has the address of the one before it where that is wanted.
describe() {
  awk -v hosted="$1" -v ranges="$2" -v overlap="$3" -v limit=1048576 '
    function name(d) { return sprintf("\"the_domain_no_%02d\"", d % 16) }
    function line(text) { lines[count++] = text; size += length(text) + 1 }
    BEGIN {
      line("version = 1\nshape = \"mesh\"\ndims = [16, 16]\nstages = 1\nbuffer = 1")
      for (d = 0; d < 16; d++) line("[[domain]]\nname = " name(d) "\nchannels = 1")
      for (n = 0; n < 256; n++) {
        names = name(n)
        for (k = 1; k < hosted; k++) names = names ", " name(n + k)
        line("[[tile]]\nat = " n "\ndomains = [" names "]")
      }
      for (i = 0; i < ranges; i++) {
        address = overlap && i == ranges - 1 ? i - 1 : i
        line("[[range]]\ntile = " i % 256 "\nfirst = " address "\nlast = " address)
      }
      spare = int((limit - size) / count) - 2
      filler = "#"
      while (length(filler) < spare) filler = filler "."
      for (i = 0; i < count; i++) {
        print lines[i]
        if (spare > 0) print filler
      }
    }'
}

# Times the check of a description that has what the first word says.
timed() {
  local what=$1 text=$folder/description.toml best="" seconds status
  shift
  describe "$@" >"$text"
  for _ in 1 2 3 4 5; do
    status=0
    seconds=$({ time "$program" check "$text" >"$folder/said" 2>&1; } 2>&1) || status=$?
    best=$(printf '%s\n%s\n' "${best:-$seconds}" "$seconds" | sort -n | head -n 1)
  done
  echo "$what, $(wc -c <"$text") bytes: $best s: status $status: $(tail -n 1 "$folder/said")"
}

"$top/surf" check "$top/examples/one-tile.toml" >"$folder/said"

timed "one domain on each tile" 1 1024 0
timed "one domain on each tile, the last two ranges overlap" 1 1024 1
timed "all domains on each tile, the last two ranges overlap" 16 1024 1
timed "all domains on each tile" 16 1024 0
timed "a megabyte of ranges" 1 20000 0
