#!/bin/sh
# A job for CI: runs an intent with many seeds, judges a device's log, and keeps what is needed to look at a failure.
#
#   job.sh ROOT SEEDS SOURCE..
#
# The programs of the package (pstim, pstim-sarif, ..) are on the path. In the environment may be KEPT (the folder of what is
# kept, kept/), LIMIT (seconds of a run, 300), LANES (4), and LOG with TABLE (a device's log of seed 1 and its regular expressions).
set -u
root=$1 seeds=$2
shift 2
kept=${KEPT:-kept} limit=${LIMIT:-300} failed=0
mkdir -p "$kept"

# Keeps a page and a SARIF file beside a text.
keep() {
  pstim-sarif --sources "$(echo "$sources" | tr ' ' ,)" --output "$1.sarif" "$1" || true
  pstim-timeline "$1" "$1.html" --sources $sources 2>/dev/null || true
}
sources=$*

for seed in $(seq 1 "$seeds"); do
  trace=$kept/seed-$seed.trace
  timeout "$limit" pstim run root="$root" seed="$seed" lanes="${LANES:-4}" "$@" >"$trace"
  status=$?
  case $status in
    0) rm "$trace"; continue ;;
    1 | 2 | 6 | 9) echo "refused: $(head -n 1 "$trace")"; keep "$trace"; exit 1 ;; # no seed changes that
    3) echo "seed $seed: no legal scenario" ;;
    4) echo "seed $seed: the budget was spent" ;;
    5) echo "seed $seed: $(tail -n 1 "$trace")" ;;
    124) echo "seed $seed: no end in $limit s" ;;
    *) echo "seed $seed: status $status" ;;
  esac
  failed=1
  keep "$trace"
done

if [ -n "${LOG:-}" ]; then
  pstim solve root="$root" seed=1 "$@" >"$kept/scenario" &&
    pstim-from-log "$TABLE" "$LOG" --header "$kept/scenario" --cut --output "$kept/log.trace" || failed=1
  verdict=$(pstim check root="$root" seed=1 trace="$kept/log.trace" "$@")
  echo "log: $verdict"
  echo "$verdict" | pstim-sarif --trace "$kept/log.trace" --output "$kept/log.sarif" || failed=1
  [ "$verdict" = "check whole" ] || failed=1
fi

pstim-coverage root="$root" --seeds "1..$seeds" "$@" --html "$kept/coverage.html" --xml "$kept/coverage.xml" | head -n 1
exit "$failed"
