#!/usr/bin/env bash
# The tools on their samples and on damaged files: what each writes to standard output, its one line on standard error, its exit status.
# The tools are in target/bin: bin/tool or .ci/run has put them there.
set -u
cd "$(dirname "$0")/.." || exit 2
table=samples/city.table
zone=samples/zone.cells
work=$(mktemp -d) || exit 2
trap 'rm -rf "$work"' EXIT
tests=0
failures=0

# run COMMAND...: what it writes, and its exit status
run() {
  tests=$((tests + 1))
  "$@" >"$work/out" 2>"$work/err"
  status=$?
}

fault() {
  failures=$((failures + 1))
  echo "FAILED: $1"
  echo "  status $status"
  sed 's/^/  out: /' "$work/out" | head -n 5
  sed 's/^/  err: /' "$work/err" | head -n 5
}

# same FILE COMMAND...: ends well, and writes just what the file holds
same() {
  local file=$1
  shift
  run "$@"
  [ "$status" -eq 0 ] && [ ! -s "$work/err" ] && cmp -s "$file" "$work/out" || fault "$*"
}

# tells LINE COMMAND...: ends well, and the line is among what it writes
tells() {
  local line=$1
  shift
  run "$@"
  [ "$status" -eq 0 ] && [ ! -s "$work/err" ] && grep -qxF -- "$line" "$work/out" || fault "$*"
}

# refused LINE COMMAND...: writes this line to standard error, and nothing else
refused() {
  local line=$1
  shift
  run "$@"
  [ "$status" -eq 1 ] && [ ! -s "$work/out" ] && [ "$(cat "$work/err")" = "$line" ] || fault "$*"
}

# ends COMMAND...: does its work or says one line, and does not crash
ends() {
  run "$@"
  if [ "$status" -eq 0 ]; then [ ! -s "$work/err" ]; else [ "$status" -eq 1 ] && [ "$(wc -l <"$work/err")" -eq 1 ] && [ ! -s "$work/out" ]; fi || fault "$*"
}

# ---- what is damaged: tables cut off, empty, a row too long, out of order, and with row 5 breaking each rule; a file too long; lists of all kinds

head -c 42235 "$table" >"$work/cut.table"
: >"$work/empty"
{ cat "$table"; head -c 20 "$table"; } >"$work/unordered.table"

# patched NAME OFFSET BYTES: the table with other bytes in row 5, which begins at byte 100
patched() {
  cp "$table" "$work/$1.table"
  printf "$3" | dd of="$work/$1.table" bs=1 seek=$((100 + $2)) conv=notrunc status=none
}

patched resolution 6 '\x82'
patched edge 7 '\x17'
patched past 8 '\xff\xff\x00\x00'
patched itself 8 '\x05\x00\x00\x00'
patched back 8 '\x06\x00\x00\x00'
patched term 12 '\x00\x00\x00\x00\x00\x00\xf8\x7f'
yes x | head -c 1500000 >"$work/long"
head -c 1310740 /dev/zero >"$work/rows.table"
head -c 4000 /bin/sh >"$work/binary"
printf '8928308280fffff\r\n# a comment\n\n 0x8928308283bffff  # another\n' >"$work/good.cells"
printf '8928308280fffff\nxyz\n' >"$work/word.cells"
printf '8928308280fffff\n\n0x8928308280fffff\n' >"$work/twice.cells"
printf '8928308280fffff\n8828308281fffff\n' >"$work/coarse.cells"
printf '8928308280fffff\n123\n' >"$work/invalid.cells"
printf '89283470803ffff\n' >"$work/elsewhere.cells"
printf '8828308281fffff\n' >"$work/coarser.cells"
printf '\357\273\2778928308280fffff\n' >"$work/marked.cells"
for base in $(seq 0 121); do printf '%016x\n' $((0x08001fffffffffff + base * 0x200000000000)); done >"$work/world.cells"
seq 1 16385 | sed 's/.*/8928308280fffff/' >"$work/many.cells"

# ---- outline

# The samples are those that the programs of crates/ run on.
for copy in outline/data/city.table outline/data/zone.cells till_import/data/market.cells till_import/data/streets.cells year_audit/data/year.feed; do
  run cmp "crates/$copy" "samples/$(basename "$copy")"
  [ "$status" -eq 0 ] || fault "samples/$(basename "$copy") is not that of crates/$copy"
done

same crates/outline/stdout bin/outline "$table" "$zone"
tells 'polygons 2' bin/outline "$table" "$zone"
tells 'rings 3' bin/outline --mode even "$table" "$zone"
tells 'standing edges 90' bin/outline "$table" --mode mixed "$zone"
tells 'standing edges 18' bin/outline --mode mixed "$table" "$work/coarser.cells"
refused "$work/coarser.cells line 1: refused 4, this cell's resolution does not fit the table" bin/outline --mode even "$table" "$work/coarser.cells"
refused "$work/coarser.cells line 1: refused 4, this cell's resolution does not fit the table" bin/outline "$table" "$work/coarser.cells"
tells 'cells 1' bin/outline "$table" "$work/marked.cells"
tells '    296' bin/outline --rows "$table" samples/market.cells
tells 'cells 2' bin/outline "$table" "$work/good.cells"
tells 'nothing: the list has no cells' bin/outline "$table" "$work/empty"
tells 'standing edges 0' bin/outline "$table" "$work/empty"
tells 'closed: no edge stands' bin/outline crates/worked_examples/data/world_r0.table "$work/world.cells"
tells 'cells 122' bin/outline crates/worked_examples/data/world_r0.table "$work/world.cells"
refused 'outline: --mode is the last argument, and even or mixed has to follow; outline --help says more' bin/outline "$table" "$zone" --mode
tells 'standing edges 18' bin/outline --mode even --mode mixed "$table" "$work/coarser.cells"
refused 'outline: argument 4, odd, is no mode, which is even or mixed; outline --help says more' bin/outline "$table" "$zone" --mode odd
refused 'outline: argument 2, --rows, is no mode, which is even or mixed; outline --help says more' bin/outline --mode --rows "$table" "$zone"

# ---- command lines, the same way for all: the tool, what it wants, its use, and a word too many where there can be one

longer=$(head -c 70000 /dev/zero | tr '\0' x)
long=${longer:0:4097}
longest=${longer:0:4096}

# taken NAME COMMAND...: the name is taken as a file's, of which there is none
taken() {
  local name=$1
  shift
  run "$@"
  [ "$status" -eq 1 ] && [ ! -s "$work/out" ] && [ "$(wc -l <"$work/err")" -eq 1 ] && [[ $(cat "$work/err") == "$name: "* ]] || fault "$*"
}

command_lines() {
  local tool=$1 wanted=$2 usage="usage: $1 $3" more="; $1 --help says more"
  shift 3
  wanted="$tool: $wanted are wanted$more"
  refused "$wanted" bin/$tool
  refused "$wanted" bin/$tool "$table"
  refused "$tool: argument 1 is empty$more" bin/$tool '' "$zone"
  refused "$tool: argument 2 is empty$more" bin/$tool "$table" ''
  refused "$tool: argument 2 is longer than 4096 bytes$more" bin/$tool "$table" "$long"
  refused "$tool: argument 2 is longer than 4096 bytes$more" bin/$tool "$table" "$longer"
  taken "$longest" bin/$tool "$table" "$longest"
  refused "$tool: argument 1, --colour, is no option (a file of that name is given as ./--colour)$more" bin/$tool --colour "$table" "$zone"
  refused "$tool: argument 3, -, is no option (a file of that name is given as ./-)$more" bin/$tool "$table" "$zone" - ''
  taken ./-none bin/$tool ./-none "$zone"
  tells "$usage" bin/$tool --help
  tells "$usage" bin/$tool "$table" "$zone" --help
  tells "$usage" bin/$tool --colour '' "$long" --help "$table"
  [ $# -eq 0 ] || refused "$tool: argument 3, $1, is one file too many$more" bin/$tool "$table" "$zone" "$1" "$zone"
}

command_lines outline 'a TABLE and a CELLS file' 'TABLE CELLS [--mode even|mixed] [--rows]' more.cells
command_lines till_import 'a TABLE and one CELLS file or more' 'TABLE CELLS...'
command_lines year_audit 'a TABLE and a FEED file' 'TABLE FEED' even
for tool in till_import year_audit; do
  refused "$tool: argument 1, --rows, is no option (a file of that name is given as ./--rows); $tool --help says more" bin/$tool --rows "$table" "$zone"
  refused "$tool: argument 1, --mode, is no option (a file of that name is given as ./--mode); $tool --help says more" bin/$tool --mode even "$table" "$zone"
done

# ---- an answer that cannot be written is not lost without a word

for tool in outline till_import year_audit; do
  tests=$((tests + 1))
  bin/$tool "$table" "$zone" >/dev/full 2>"$work/err"
  status=$?
  : >"$work/out"
  [ "$status" -eq 1 ] && [ "$(cat "$work/err")" = 'what there is to say could not be written' ] || fault "$tool to a full disk"
  tests=$((tests + 1))
  bin/$tool "$table" "$zone" >&- 2>"$work/err"
  status=$?
  [ "$status" -eq 1 ] && [ "$(cat "$work/err")" = 'what there is to say could not be written' ] || fault "$tool with standard output closed"
  tests=$((tests + 1))
  bin/$tool "$table" "$work/none" 2>/dev/full
  status=$?
  [ "$status" -eq 1 ] || fault "$tool with standard error full"
done

# ---- files that no tool can take; each tool takes a table and a list

too_long_name=$(printf 'x%.0s' $(seq 1 300))
for tool in outline till_import year_audit; do
  refused "$work/none: there is no such file" bin/$tool "$work/none" "$zone"
  refused "$zone/none: there is no such file" bin/$tool "$zone/none" "$zone"
  refused "$work: this is a directory" bin/$tool "$work" "$zone"
  refused "$too_long_name: this file cannot be read" bin/$tool "$too_long_name" "$zone"
  refused "$work/long byte 1441792: this file is too long" bin/$tool "$work/long" "$zone"
  refused "$work/cut.table byte 42220: this row is cut off, a row has 20 bytes" bin/$tool "$work/cut.table" "$zone"
  refused "$work/rows.table byte 1310720: this table has more than 65536 rows" bin/$tool "$work/rows.table" "$zone"
  refused "$work/empty: refused 1, the table has fewer than 2 rows" bin/$tool "$work/empty" "$zone"
  refused "$work/empty: refused 1, the table has fewer than 2 rows" bin/$tool "$work/empty" "$work/none"
  refused "$work/unordered.table row 2112, byte 42240: refused 1, this row is not above the one before it" bin/$tool "$work/unordered.table" "$zone"
  refused "$work/resolution.table: refused 1, its edges are of unequal resolutions" bin/$tool "$work/resolution.table" "$zone"
  refused "$work/edge.table row 5, byte 100: refused 1, this row is no valid edge" bin/$tool "$work/edge.table" "$zone"
  refused "$work/past.table row 5, byte 100: refused 1, its reverse row is past the end of the table" bin/$tool "$work/past.table" "$zone"
  refused "$work/itself.table row 5, byte 100: refused 1, its reverse row is the row itself" bin/$tool "$work/itself.table" "$zone"
  refused "$work/back.table row 5, byte 100: refused 1, its reverse row does not name it back" bin/$tool "$work/back.table" "$zone"
  refused "$work/term.table row 5, byte 100: refused 1, its area term is not finite" bin/$tool "$work/term.table" "$zone"
  refused "$work/none: there is no such file" bin/$tool "$table" "$work/none"
  refused "$work: this is a directory" bin/$tool "$table" "$work"
  refused "$work/long byte 1441792: this file is too long" bin/$tool "$table" "$work/long"
  refused "$table line 1, byte 1: a line has one cell, 1 to 16 hexadecimal digits, with or without 0x" bin/$tool "$table" "$table"
  refused "$work/word.cells line 2, byte 1: a line has one cell, 1 to 16 hexadecimal digits, with or without 0x" bin/$tool "$table" "$work/word.cells"
done

# ---- a carriage return: it ends a line before its newline and at the end of the text; in a comment it would swallow the cells behind it.
# A fault is told at its byte, not at the blanks in front of it

printf '# the market\r8928308280fffff\r8928308283bffff\r' >"$work/returns.cells"
printf '# the market\r\n8928308280fffff # a stall\r' >"$work/ended.cells"
printf '8928308280fffff\n8928308283bffff g\n' >"$work/letter.cells"
refused "$work/returns.cells line 1, byte 13: a carriage return inside a comment: lines end with LF" bin/outline "$table" "$work/returns.cells"
tells 'cells 1' bin/outline "$table" "$work/ended.cells"
refused "$work/letter.cells line 2, byte 17: a line has one cell, 1 to 16 hexadecimal digits, with or without 0x" bin/outline "$table" "$work/letter.cells"

# ---- little stack: an environment of nearly 1 MB takes none of it, and arguments that could take more than is left are refused

large=$(head -c 120000 /dev/zero | tr '\0' x)

# narrow COMMAND...: with 8 MB of stack, and no more to be had
narrow() {
  (ulimit -S -s 8192 && ulimit -H -s 8192 && "$@")
}

for stack in env narrow; do
  tells 'points over 0' $stack env A="$large" B="$large" C="$large" D="$large" E="$large" F="$large" G="$large" H="$large" bin/year_audit "$table" samples/year.feed
  tells 'polygons 2' $stack env A="$large" B="$large" C="$large" D="$large" E="$large" F="$large" G="$large" H="$large" bin/outline "$table" "$zone"
done
tells 'usage: year_audit TABLE FEED' narrow bin/year_audit $(seq 1 36000) --help
tells 'usage: year_audit TABLE FEED' bin/year_audit $(seq 1 60000) --help
run narrow bin/year_audit $(seq 1 60000) --help
[ "$status" -eq 2 ] && [ ! -s "$work/out" ] && [ "$(cat "$work/err")" = 'year_audit: its arguments take 828909 bytes of the stack, and ulimit -s leaves 524288' ] || fault 'year_audit with more arguments than there is stack for'

# ---- a file that may not be read. Nothing stops root, so there another user runs copies of the tools.

cp "$zone" "$work/locked"
chmod 0 "$work/locked"
other=()
home=.
if [ "$(id -u)" -eq 0 ]; then
  other=(setpriv --reuid=65534 --clear-groups)
  home=$work/home
  mkdir -p "$home/crates" "$home/samples" "$home/target"
  touch "$home/crates.txt"
  cp "$table" "$home/samples"
  cp -r target/bin "$home/target"
  cp -R -P bin "$home"
  chmod 755 "$work"
fi
if "${other[@]}" test -r "$home/$table" 2>/dev/null; then
  for tool in outline till_import year_audit; do
    refused "$work/locked: this file may not be read" "${other[@]}" "$home/bin/$tool" "$home/$table" "$work/locked"
  done
else
  echo "a file that may not be read was left out: no setpriv, or no folder that another user reaches"
fi

# ---- a tool that a signal ends is told by the exit status, and a file that was read is closed

mkdir -p "$work/ended/crates" "$work/ended/target/bin"
touch "$work/ended/crates.txt"
cp -R -P bin "$work/ended"
printf '#!/usr/bin/env bash\nkill -SEGV $$\n' >"$work/ended/target/bin/outline"
chmod +x "$work/ended/target/bin/outline"
run "$work/ended/bin/outline" "$table" "$zone"
[ "$status" -eq 139 ] || fault 'a tool that a signal ends'
few_open() {
  (ulimit -n 16 && bin/till_import "$table" $(yes samples/market.cells | head -n 40))
}
run few_open
[ "$status" -eq 0 ] && [ ! -s "$work/err" ] && [ "$(grep -c '^samples/market.cells: outline' "$work/out")" -eq 40 ] || fault 'forty lists with sixteen files open at most'

# ---- names and words with a line end, and with other control bytes: one line, with a question mark for each

broken=$work/$'two\nlines'
named=$work/'two?lines'
cp "$work/word.cells" "$broken.cells"
cp "$work/twice.cells" "$broken.twice"
cp "$work/cut.table" "$broken.table"
: >"$broken.empty"
for tool in outline till_import year_audit; do
  refused "$named: there is no such file" bin/$tool "$broken" "$zone"
  refused "$named: there is no such file" bin/$tool "$table" "$broken"
  refused "$work/?[1m?: there is no such file" bin/$tool "$table" "$work/"$'\033[1m\177'
  refused "$named.table byte 42220: this row is cut off, a row has 20 bytes" bin/$tool "$broken.table" "$zone"
  refused "$named.empty: refused 1, the table has fewer than 2 rows" bin/$tool "$broken.empty" "$zone"
  refused "$named.cells line 2, byte 1: a line has one cell, 1 to 16 hexadecimal digits, with or without 0x" bin/$tool "$table" "$broken.cells"
  refused "$tool: argument 1, --two?lines, is no option (a file of that name is given as ./--two?lines); $tool --help says more" bin/$tool $'--two\nlines' "$table" "$zone"
done
for tool in outline till_import; do
  refused "$named.twice line 3: refused 3, this cell is there already, or lies under another" bin/$tool "$table" "$broken.twice"
done
tells "$named.empty: nothing, cells 0, polygons 0, rings 0, standing edges 0" bin/till_import "$table" "$broken.empty"

# ---- a name that is not UTF-8: the library opens no file by it, which is told as of any file that cannot be read; as a word it is taken as any other

foreign=$work/$'three\377'
cp "$zone" "$foreign.cells"
for tool in outline till_import year_audit; do
  refused "$foreign.cells: this file cannot be read" bin/$tool "$table" "$foreign.cells"
  refused "$foreign.table: this file cannot be read" bin/$tool "$foreign.table" "$zone"
  refused "$tool: argument 1, --"$'\377'", is no option (a file of that name is given as ./--"$'\377'"); $tool --help says more" bin/$tool $'--\377' "$table" "$zone"
done

# ---- lists that dissolve refuses, each with the line of the cell

for tool in outline till_import; do
  refused "$work/twice.cells line 3: refused 3, this cell is there already, or lies under another" bin/$tool "$table" "$work/twice.cells"
  refused "$work/coarse.cells line 2: refused 4, this cell's resolution does not fit the table" bin/$tool "$table" "$work/coarse.cells"
  refused "$work/invalid.cells line 2: refused 2, this is no valid cell" bin/$tool "$table" "$work/invalid.cells"
  refused "$work/elsewhere.cells line 1: refused 5, an edge of this cell's outline is not in the table" bin/$tool "$table" "$work/elsewhere.cells"
  refused "$work/many.cells line 16385: there are more than 16384 cells" bin/$tool "$table" "$work/many.cells"
done

# ---- till_import: a zone that cannot be taken leaves the others alone

tells "$work/empty: nothing, cells 0, polygons 0, rings 0, standing edges 0" bin/till_import "$table" "$work/empty"
tells "$work/world.cells: closed, cells 122, polygons 0, rings 0, standing edges 0" bin/till_import crates/worked_examples/data/world_r0.table "$work/world.cells"
bin/till_import "$table" samples/streets.cells samples/market.cells >"$work/both"
run bin/till_import "$table" samples/streets.cells "$work/twice.cells" "$work/none" samples/market.cells
[ "$status" -eq 1 ] && cmp -s "$work/both" "$work/out" && [ "$(wc -l <"$work/err")" -eq 2 ] || fault "till_import with two bad zones among good ones"

# ---- year_audit

same crates/year_audit/stdout bin/year_audit "$table" samples/year.feed
tells 'points over 0' bin/year_audit "$table" samples/year.feed
tells 'standing outline: nothing, no cell is held' bin/year_audit "$table" "$work/empty"
tells 'refused by 3: 1, this cell is there already, or lies under another' bin/year_audit "$table" "$work/twice.cells"
tells 'refused by 4: 1, this cell'"'"'s resolution does not fit the table' bin/year_audit "$table" "$work/coarse.cells"
tells 'refused by 2: 1, this is no valid cell' bin/year_audit "$table" "$work/invalid.cells"
tells 'refused by 3: 16384, this cell is there already, or lies under another' bin/year_audit "$table" "$work/many.cells"

# ---- one byte changed, at places all over a table and a list: each tool does its work, or says one line and writes nothing else

# changed FILE PLACE: a copy with another byte at the place
changed() {
  cp "$1" "$work/changed"
  printf '\\%03o' $(($2 % 256)) | xargs -0 printf | dd of="$work/changed" bs=1 seek="$2" conv=notrunc status=none
}

for tool in outline till_import year_audit; do
  for place in $(seq 3 1409 42239); do
    changed "$table" "$place"
    ends bin/$tool "$work/changed" "$zone"
  done
  for place in $(seq 1 37 1029); do
    changed "$zone" "$place"
    ends bin/$tool "$table" "$work/changed"
  done
  ends bin/$tool "$work/binary" "$zone"
  ends bin/$tool "$table" "$work/binary"
done

echo "$tests tests of the tools, $failures failures"
[ "$failures" -eq 0 ]
