# What the benchmarks share; sourced by them. It makes the folder $work, which is removed when the benchmark ends.
program=${UNWRAP:-$here/../crates/insar_unwrap/out/insar_unwrap}
[ -x "$program" ] || { echo "$(basename "$0"): $program is not built: run ./demo or rt ci, or set UNWRAP" >&2; exit 2; }
work=$(mktemp -d)
trap 'rm -r "$work"' EXIT

compile() { "${CXX:-c++}" -O2 -std=c++17 -o "$work/$1" "$here/$1.cpp"; }

# best INPUT OUTPUT COMMAND..: the least time of five runs, or of RUNS if it is set, in tenths of a millisecond; of two if a run
# takes more than 20 s. The lines on standard error go to OUTPUT.line, and the most memory that the last run held at once
# to OUTPUT.peak. An OUTPUT of an earlier run is removed before the clock starts, since to cut off a file that is on its way to the disk
# takes a tenth of a second. A command that fails ends the benchmark.
best() {
  local input=$1 output=$2 least= run from took
  shift 2
  for ((run = 1; run <= ${RUNS:-5}; ++run)); do
    rm -f "$output"
    from=${EPOCHREALTIME//[!0-9]/}
    /usr/bin/time -f %M -o "$output.peak" "$@" <"$input" >"$output" 2>"$output.line" ||
      { echo "$(basename "$1") failed: $(head -n 1 "$output.line")" >&2; return 1; }
    took=$(((${EPOCHREALTIME//[!0-9]/} - from) / 100))
    if [ -z "$least" ] || [ "$took" -lt "$least" ]; then least=$took; fi
    if [ "$run" -ge 2 ] && [ "$least" -gt 200000 ]; then break; fi
  done
  echo "$least"
}

# best_of NAME, median_of NAME: of the times of this name, lines of $work/times.NAME.
best_of() { sort -n "$work/times.$1" | head -n 1; }
median_of() { sort -n "$work/times.$1" | awk '{ time[NR] = $1 } END { print time[int((NR + 1) / 2)] }'; }

# in_turn NAME..: the least time of each of some commands, run in turn as often as by `best`, so that what else the machine does comes
# over all. Each NAME names an array of an input, an output and a command; `median_of NAME` tells its median afterwards.
in_turn() {
  local runs=${RUNS:-5} RUNS=1 run name took longest=0
  for name in "$@"; do rm -f "$work/times.$name"; done
  for ((run = 1; run <= runs; ++run)); do
    for name in "$@"; do
      local -n command=$name
      took=$(best "${command[@]}") || return 1
      echo "$took" >>"$work/times.$name"
      if [ "$took" -gt "$longest" ]; then longest=$took; fi
    done
    if [ "$run" -ge 2 ] && [ "$longest" -gt 200000 ]; then break; fi
  done
  for name in "$@"; do printf '%s ' "$(best_of "$name")"; done
  echo
}

# held OUTPUT: the most memory that its run held at once, in KiB.
held() { tail -n 1 "$1.peak"; }

# size REPORT: its width and height in pixels.
size() { sed -n 's/^size //p;2q' "$1"; }

# numbers_in TEXT: how many numbers it has.
numbers_in() { tr -c '0-9-' '\n' <"$1" | grep -c .; }
