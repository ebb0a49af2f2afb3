# shellcheck shell=bash disable=SC2034
# What the measuring scripts share; each of them sources it. Nothing here measures by itself.
set -u
export LC_ALL=C
bench=$(cd "$(dirname "${BASH_SOURCE[0]}")" && pwd)
top=$(dirname "$bench")
out=$bench/out
mkdir -p "$out" || exit 1

# fail WORDS..: says why no more is measured, and ends the script
fail() {
  echo "bench: $*" >&2
  exit 1
}

# needs COMMAND: ends the script with status 3 where a command is not there
needs() {
  command -v "$1" >/dev/null 2>&1 && return
  echo "bench: $(basename "$0") is skipped: $1 is not there, and nothing can be measured without it" >&2
  exit 3
}

# has COMMAND PEER: whether a command is there; where it is not, says that the peer is skipped
has() {
  command -v "$1" >/dev/null 2>&1 || { echo "$2: skipped, since $1 is not there"; return 1; }
}

# find_scuba: the program to measure is $scuba, which the variable SCUBA may name; the launcher builds it where it is missing or older than its sources
find_scuba() {
  scuba=${SCUBA-}
  if [ -n "$scuba" ]; then return; fi
  "$top/scuba" mem play </dev/null >/dev/null || exit 1
  scuba=$top/crates/scuba_cli/out/scuba_cli
}

# rust PEER: builds peers/PEER.rs as $out/PEER
rust() {
  rustc -O --edition 2021 -o "$out/$1" "$bench/peers/$1.rs" || fail "peers/$1.rs could not be built"
}

# has_simdjson: whether simdjson is there to be built with; where it is not, says that the peer is skipped
has_simdjson() {
  has g++ simdjson || return
  printf '#include <simdjson.h>\nint main() {}\n' | g++ -x c++ -o "$out/found" - -lsimdjson 2>"$out/error" ||
    { echo "simdjson: skipped, since its header or its library is not there"; return 1; }
}

# simdjson PEER: builds peers/PEER.cpp as $out/PEER
simdjson() {
  g++ -O2 -pthread -o "$out/$1" "$bench/peers/$1.cpp" -lsimdjson || fail "peers/$1.cpp could not be built"
}

# crates_under CRATE..: these crates of the repository and all that they stand on, lowest first
crates_under() {
  awk -v wanted="$*" '
    BEGIN { n = split(wanted, names, " "); for (i = 1; i <= n; i++) is_wanted[names[i]] = 1 }
    { sub(/#.*/, "") }
    /^[^ ]+:/ { name = $1; sub(/:$/, "", name); listed[++count] = name; line[name] = $0 }
    END {
      for (i = count; i > 0; i--) if (listed[i] in is_wanted) { n = split(line[listed[i]], names, " "); for (j = 2; j <= n; j++) is_wanted[names[j]] = 1 }
      for (i = 1; i <= count; i++) if (listed[i] in is_wanted) print listed[i]
    }' "$top/crates.txt"
}

# build_measured NAME CRATES WORDS..: builds the program of the folder bench/NAME, which stands on these crates, as $out/NAME, where that is missing or older
# than its sources; its first run has these words and the input. It is no crate of this repository, which a source that ends in .rt would have to be of: its
# sources end in .in, and are built in a scratch folder over copies of the crates.
build_measured() {
  local name=$1 stands_on=$2 program=$out/$1 log=$out/$1.log began=$SECONDS crates crate part source scratch
  shift 2
  mapfile -t crates < <(crates_under "$stands_on")
  if [ -x "$program" ] &&
    [ -z "$(find "$bench/$name" "${crates[@]/#/$top/crates/}" -name out -prune -o -newer "$program" -type f -print -quit)" ]; then return; fi
  needs rt
  scratch=$(mktemp -d) || exit 1
  cp "$top/HANDLES" "$scratch/"
  for crate in "${crates[@]}"; do
    mkdir -p "$scratch/crates/$crate"
    for part in src specs proofs; do
      if [ -d "$top/crates/$crate/$part" ]; then cp -r "$top/crates/$crate/$part" "$scratch/crates/$crate/"; fi
    done
    grep "^$crate:" "$top/crates.txt" >>"$scratch/crates.txt"
  done
  echo "$name: $stands_on" >>"$scratch/crates.txt"
  cp -r "$bench/$name" "$scratch/crates/"
  find "$scratch/crates/$name" -name '*.in' | while read -r source; do mv "$source" "${source%.in}"; done
  echo "bench: proving and building the measured program; the first time takes some minutes" >&2
  if ! (cd "$scratch/crates/$name" && rt run -- "$@") >"$log" 2>&1; then
    tail -n 20 "$log" >&2
    fail "the build failed; the whole of what it printed is in $log, and the scratch folder is $scratch"
  fi
  cp "$scratch/crates/$name/out/$name" "$program" && touch "$program" || exit 1
  rm -rf "$scratch"
  echo "bench: built in $((SECONDS - began)) seconds" >&2
}

# adds ROWS FORM: a script that adds so many rows to the table t, at most 100,000 at a time; the same at each run, the time of a row and its code put into the form
adds() {
  awk -v rows="$1" -v form="$2" 'BEGIN {
    print "fleet 1 1 t"
    for (i = 0; i < rows; i++) {
      if (i % 100000 == 0) print "add 0 t " (rows - i < 100000 ? rows - i : 100000)
      printf form "\n", i, (i * 7919) % 600
    }
  }'
}

# once NAME INPUT COMMAND..: runs a command over an input; adds its processor seconds, its peak memory in KiB and its seconds by the clock to the runs of that
# name, and keeps its answer. Seconds are told by the shell in thousandths, since /usr/bin/time has hundredths.
once() {
  local name=$1 input=$2 TIMEFORMAT='%3U %3S %3R'
  shift 2
  { time /usr/bin/time -o "$out/peak" -f %M "$@" <"$input" >"$out/$name.answer" 2>"$out/error"; } 2>"$out/time" || fail "$name failed: $(tail -n 1 "$out/error")"
  awk -v peak="$(tail -n 1 "$out/peak")" '{ printf "%.3f %s %s\n", $1 + $2, peak, $3 }' "$out/time" >>"$out/$name.times"
}

# median NAME [COLUMN]: of the figures of its runs, of their first column where none is named
median() {
  local column=${2-1}
  sort -g -k "$column,$column" "$out/$1.times" | awk -v column="$column" '{ figure[NR] = $column } END { print figure[int((NR + 1) / 2)] }'
}

# most NAME COLUMN: the greatest figure of its runs in that column
most() {
  sort -g -k "$2,$2" "$out/$1.times" | awk -v column="$2" '{ figure = $column } END { print figure }'
}

# least NAME [COLUMN]: the least figure of its runs in that column, the first where none is named
least() {
  local column=${2-1}
  sort -g -k "$column,$column" "$out/$1.times" | awk -v column="$column" 'NR == 1 { print $column }'
}

# at_least FIGURE LEAST: whether a figure is at least so great
at_least() {
  awk -v figure="$1" -v least="$2" 'BEGIN { exit !(figure + 0 >= least + 0) }'
}

# doubled FROM TEST WORDS..: the first of FROM, twice FROM, four times FROM, .. for which the test holds; it is the first word behind the test's name
doubled() {
  local n=$1 test=$2
  shift 2
  until "$test" "$n" "$@"; do n=$((2 * n)); done
  echo "$n"
}

# ---- folders that are filled with rows of one shape; $run rows at most an add, the first time is $first, and the folders stand in $work

# row: what prints row I in awk, which has a code where I is even
row='function row(i) {
  printf "{\"time\":%d,\"host\":\"web%d\"", first + i, i % 7
  if (i % 2 == 0) printf ",\"code\":%d", 500 + i % 3
  if (i % 10 == 0) printf ",\"msg\":\"timeout\""
  print "}"
}'

# leaf_adds LEAVES FROM TO: adds to each of so many leaves the rows from its row FROM up to but without its row TO. Row I is at the leaf I modulo LEAVES
leaf_adds() {
  awk -v leaves="$1" -v from="$2" -v to="$3" -v most="$run" -v first="$first" "$row"' BEGIN {
    for (leaf = 0; leaf < leaves; leaf++) for (j = from; j < to; j++) {
      if ((j - from) % most == 0) print "add " leaf " errors " (to - j < most ? to - j : most)
      row(j * leaves + leaf)
    }
  }'
}

# fill NAME LEAVES ROWS: a folder of a fleet whose leaves have so many rows each, all of them in their logs
fill() {
  local from=0 to
  mkdir "$work/$1" || exit 1
  for to in $(($3 / 2)) "$3"; do
    { echo "fleet 1 $2 errors"; leaf_adds "$2" "$from" "$to"; awk -v leaves="$2" 'BEGIN { for (i = 0; i < leaves; i++) print "flush " i " errors" }'; } >"$out/script"
    "$scuba" "$work/$1" play <"$out/script" >"$out/filled" || fail "the folder $1 could not be filled"
    [ "$(grep -c '^flush [0-9]* done$' "$out/filled")" = "$2" ] || fail "not each leaf of the folder $1 was flushed"
    from=$to
  done
}

# times N LINE: a line, so many times
times() {
  awk -v n="$1" -v line="$2" 'BEGIN { for (i = 0; i < n; i++) print line }'
}

# ---- ClickHouse: a server of its own, whose files stand in a folder; $clickhouse is its process

# has_clickhouse: whether its server and its client are there; where they are not, says that the peer is skipped
has_clickhouse() {
  has clickhouse-server ClickHouse && has clickhouse-client ClickHouse
}

# clickhouse_up FOLDER: starts a server over a folder that is there
clickhouse_up() {
  local i
  "$bench/peers/clickhouse" "$1" >"$out/server" 2>&1 &
  clickhouse=$!
  for ((i = 0; i < 100; i++)); do
    if [ -s "$1/port" ]; then
      port=$(cat "$1/port")
      by_clickhouse 'SELECT 1' </dev/null >"$out/server" 2>&1 && return
    fi
    sleep 0.1
  done
  fail "ClickHouse did not start"
}

clickhouse_down() {
  kill "$clickhouse" && wait "$clickhouse"
}

# by_clickhouse [QUERY]: what the server answers to a query, whose rows the input has where it inserts; without one, to the queries of the input
by_clickhouse() {
  clickhouse-client --host 127.0.0.1 --port "$port" --multiquery ${1:+--query "$1"}
}

# clickhouse_used: the processor seconds of the server so far
clickhouse_used() {
  awk -v second="$(getconf CLK_TCK)" '{ printf "%.2f", ($14 + $15) / second }' "/proc/$clickhouse/stat"
}

# once_clickhouse NAME INPUT [QUERY]: as `once`: the input is the queries, or what a query inserts; the processor seconds are the server's, and no peak is told (0)
once_clickhouse() {
  local name=$1 input=$2 before began
  shift 2
  before=$(clickhouse_used)
  began=$EPOCHREALTIME
  by_clickhouse "$@" <"$input" >"$out/$name.answer" 2>"$out/error" || fail "$name failed: $(tail -n 1 "$out/error")"
  awk -v began="$began" -v ended="$EPOCHREALTIME" -v before="$before" -v after="$(clickhouse_used)" 'BEGIN { printf "%.3f 0 %.4f\n", after - before, ended - began }' >>"$out/$name.times"
}

# serde PEER: builds peers/PEER.rs over serde_json of Debian's librust-serde-json-dev as $out/PEER
serde() {
  local at=$out/$1.cargo
  mkdir -p "$at/src" && cp "$bench/peers/$1.rs" "$at/src/main.rs" || exit 1
  printf '[package]\nname = "%s"\nversion = "1.0.0"\nedition = "2021"\n[dependencies]\nserde_json = "1"\n' "$1" >"$at/Cargo.toml"
  cargo build --quiet --offline --release --manifest-path "$at/Cargo.toml" --config 'source.crates-io.replace-with="debian"' --config "source.debian.directory=\"$registry\"" ||
    fail "peers/$1.rs could not be built"
  cp "$at/target/release/$1" "$out/$1"
}

# has_serde: whether serde_json and cargo are there to be built with; where they are not, says that the peer is skipped
registry=/usr/share/cargo/registry
has_serde() {
  has cargo serde_json || return
  [ -n "$(find "$registry" -maxdepth 1 -name 'serde_json-*' -print -quit 2>/dev/null)" ] || { echo "serde_json: skipped, since $registry has none"; return 1; }
}
