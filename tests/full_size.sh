#!/usr/bin/env bash
# The tools on tables and lists of full size. What a tool says is held to what the rules and the Rust say of the same files (`runs said`), to the
# last edge: counts, groups, the order of polygons and rings, the bits of areas, each ring's edges around from its lowest row; or the refusal and its
# line.
# It needs the tools in target/bin, the runs as .ci/run builds them, and big_r9.csv of the real tables.
set -u
cd "$(dirname "$0")/.." || exit 2
runs=${CARGO_TARGET_DIR:-rust/target}/release/runs
tables=${ZONE_TABLES:-../shared/tables}
if [ ! -f "$tables/big_r9.csv" ]; then
  echo "the tools at full size were left out: no big_r9.csv in $tables"
  [ -z "${CI:-}" ]
  exit
fi
work=$(mktemp -d) || exit 2
trap 'rm -rf "$work"' EXIT
"$runs" full-size "$work" || exit 1
tests=0
failures=0

# The first lines that differ: < those of the tool, > those expected.
fault() {
  failures=$((failures + 1))
  echo "FAILED: $1"
  diff "$work/said" "$work/expected" | head -n 6 | cut -c 1-200
}

# What a tool says without the decimals of an area, and without what a refusal or a fault means.
comparable() {
  sed -E 's/area [0-9.]+ \(bits ([0-9a-f]+)\)/bits \1/; s/(refused( by)? [0-9]+(: [0-9]+)?),.*/\1/
    /refused/! s/( (byte|line) [0-9]+):.*/\1/'
}

# compare STATUS COMMAND...: ends so, and says what is expected and nothing else: on standard output if the status is 0, else on standard error
compare() {
  local status=$1 ended
  shift
  tests=$((tests + 1))
  "$@" >"$work/out" 2>"$work/err"
  ended=$?
  cat "$work/out" "$work/err" | comparable >"$work/said"
  if [ "$status" -eq 0 ]; then [ ! -s "$work/err" ]; else [ ! -s "$work/out" ]; fi &&
    [ "$ended" -eq "$status" ] && cmp -s "$work/said" "$work/expected" || fault "$*, which ended with $ended"
}

# says STATUS TOOL COMMAND... TABLE LIST: what `runs said TOOL TABLE LIST` expects
says() {
  local status=$1 tool=$2
  shift 2
  "$runs" said "$tool" "${@: -2}" >"$work/expected"
  compare "$status" "$@"
}

# faulted PLACE COMMAND...: one line on the fault at this place
faulted() {
  echo "$1" >"$work/expected"
  shift
  compare 1 "$@"
}

table=$work/big.table

# ---- 65,534 rows: 10,000 cells with holes, some 2,500 that do not touch, all 10,802 of the table

for list in zone scattered whole; do
  says 0 outline bin/outline "$table" "$work/$list.cells"
  says 0 till_import bin/till_import "$table" "$work/$list.cells"
done
says 0 outline-mixed bin/outline --mode mixed "$table" "$work/mixed.cells"

# ---- lists with a fault: 10,803 cells of which the last is not in the table, 16,384 of which the last 5,582 are not, 16,384 of which the last is the first again

for tool in outline till_import; do
  for list in last most equal; do
    says 1 $tool bin/$tool "$table" "$work/$list.cells"
  done
  faulted "$work/many.cells line 16385" bin/$tool "$table" "$work/many.cells"
done

# ---- a feed of 20,000 offers, 9,000 of them replays

says 0 year_audit bin/year_audit "$table" "$work/year.feed"
faulted "$work/long.feed line 65537" bin/year_audit "$table" "$work/long.feed"

# ---- as many cells that do not touch as 65,536 rows have room for, of which there is most to say

for tool in outline till_import; do
  says 0 $tool bin/$tool "$work/apart.table" "$work/apart.cells"
done

# ---- a table of 65,536 rows, a list that fills the room of 1,441,792 bytes, and files of one byte more

for tool in outline till_import year_audit; do
  says 0 $tool bin/$tool "$work/full.table" "$work/scattered.cells"
  says 0 $tool bin/$tool "$table" "$work/room.cells"
  faulted "$work/long.table byte 1310720" bin/$tool "$work/long.table" "$work/zone.cells"
  faulted "$work/long.cells byte 1441792" bin/$tool "$table" "$work/long.cells"
done

echo "$tests tests of the tools at full size, $failures failures"
[ "$failures" -eq 0 ]
