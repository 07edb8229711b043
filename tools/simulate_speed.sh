#!/usr/bin/env bash
# Times `surf simulate` on large networks: an 8 by 8 torus of 4 domains of 2 channels in which one packet after the
# other is on its way, a 16 by 16 mesh of 16 domains in which nothing moves, and the making of a network of 24,576
# buffer slots. With the words DESCRIPTION TRACE CYCLES it times that run too; where these are a stress run's, the time
# above that of `surf stress` is what reading its trace and writing its reports takes.
# Builds the program where it is missing, as `surf` does.
# Prints a line for each: what it has, the processor seconds of the fastest of five runs, the cycles a second, and the
# status. Reading the files and writing the reports is included.
set -eu
top=$(dirname "$(dirname "$(readlink -f "$0")")")
program=$top/crates/surf/out/surf
folder=$(mktemp -d)
trap 'rm -rf "$folder"' EXIT
TIMEFORMAT="%U %S"

# A square network: its shape, its side, its domains and their channels, the depth of a buffer, and how many domains a
# tile hosts.
describe() {
  awk -v shape="$1" -v side="$2" -v domains="$3" -v channels="$4" -v buffer="$5" -v hosted="$6" '
    function name(d) { return sprintf("\"d%d\"", d % domains) }
    BEGIN {
      printf "version = 1\nshape = \"%s\"\ndims = [%d, %d]\nstages = 1\nbuffer = %d\n", shape, side, side, buffer
      for (d = 0; d < domains; d++) printf "[[domain]]\nname = %s\nchannels = %d\n", name(d), channels
      for (n = 0; n < side * side; n++) {
        names = name(n)
        for (k = 1; k < hosted; k++) names = names ", " name(n + k)
        printf "[[tile]]\nat = %d\ndomains = [%s]\n[[range]]\ntile = %d\nfirst = %d\nlast = %d\n", n, names, n, n, n
      }
    }'
}

# Times a run of a description under a trace, named by the first word.
timed() {
  local what=$1 description=$2 trace=$3 cycles=$4 best="" seconds status
  for _ in 1 2 3 4 5; do
    status=0
    seconds=$({ time "$program" simulate "$description" "$trace" "$cycles" >"$folder/said" 2>&1; } 2>&1) || status=$?
    seconds=$(awk '{ print $1 + $2 }' <<<"$seconds")
    best=$(printf '%s\n%s\n' "${best:-$seconds}" "$seconds" | sort -n | head -n 1)
  done
  echo "$what, $cycles cycles: $best s$(awk -v n="$cycles" -v s="$best" \
    'BEGIN { if (n > 0 && s > 0) printf ", %d a second", n / s }'): status $status"
}

"$top/surf" check "$top/examples/one-tile.toml" >"$folder/said"

describe torus 8 4 2 4 4 >"$folder/torus.toml"
# A packet of four words over seven links is on its way for more than 32 cycles.
awk 'BEGIN { for (cycle = 0; cycle < 65536; cycle += 32) printf "%d 0 d0 send 23 1 2 3 4\n", cycle }' \
  >"$folder/torus.trace"
timed "an 8 by 8 torus, 4 domains, a packet on its way" "$folder/torus.toml" "$folder/torus.trace" 65536
describe mesh 16 16 1 1 1 >"$folder/mesh.toml"
: >"$folder/empty.trace"
timed "a 16 by 16 mesh, 16 domains, no packet" "$folder/mesh.toml" "$folder/empty.trace" 65536
awk 'BEGIN {
  print "version = 1\nshape = \"torus\"\ndims = [16]\nstages = 1\nbuffer = 4"
  for (d = 0; d < 16; d++) printf "[[domain]]\nname = \"d%d\"\nchannels = 4\n", d
}' >"$folder/largest.toml"
timed "a network of 24,576 buffer slots made" "$folder/largest.toml" "$folder/empty.trace" 0
if [ "$#" = 3 ]; then
  timed "$(basename "$1") under $(basename "$2")" "$1" "$2" "$3"
fi
