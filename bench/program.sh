# What the scripts that measure the built program share. They read it first, at the top of the repository. BEAM_HEAP in the
# environment names a program that is built already; without it the repository's own is built, which proves it.
out=bench/out
mkdir -p "$out"
if [ -n "${BEAM_HEAP:-}" ]; then
  program=$BEAM_HEAP
else
  ./beam_heap </dev/null
  program=crates/beam_heap/out/beam_heap
fi
cc -O2 -o "$out/measure" bench/measure.c

# One field of the lines of a file, in rising order.
rising() { cut -d' ' -f"$1" "$2" | sort -n; }
least() { rising "$1" "$2" | head -n 1; }
most() { rising "$1" "$2" | tail -n 1; }
middle() { rising "$1" "$2" | awk '{ row[NR] = $1 } END { print row[int((NR + 1) / 2)] }'; }

# Whether the program knows binaries, funs and their counts.
has_binaries() { [ "$(echo '1 fill 0 1 0' | "$program")" = ok ]; }

# Whether the program knows messages.
has_messages() { [ "$(echo '1 send 0 1' | "$program")" = ok ]; }

# The processor time of the program over a script, in seconds: the least of nine runs.
seconds() {
  : >"$out/seconds.times"
  for _ in 1 2 3 4 5 6 7 8 9; do
    "$out/measure" "$program" <"$1" 2>>"$out/seconds.times" >/dev/null
  done
  awk -v micros="$(least 3 "$out/seconds.times")" 'BEGIN { print micros / 1000000 }'
}
