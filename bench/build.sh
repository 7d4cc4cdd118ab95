#!/usr/bin/env bash
# Times `f95a build` on sources of seven shapes, of 128 KiB and of 1 MiB, and measures its memory, also as a multiple of the
# source. It is run by hand:
#
#   bench/build.sh               three runs of each
#   bench/build.sh 7             seven runs of each
#   F95A=FILE bench/build.sh     the same with another build of the program, as that of an older commit
#   bench/build.sh texts FOLDER  only writes the sources into FOLDER, of 16 KiB each
#
# FILE is a path from the top of the repository. Without it the program must be at crates/f95a/out/f95a (README.md says how it gets
# there). The script needs GNU time.
#
# The time is the least of the runs, from the start of the program to its end, with the text written to a file; the memory is the
# most that a run held. Times alone compare machines: go by how the shapes compare, and how the two sizes do.
set -eu
export LC_ALL=C
cd "$(dirname "$0")/.."
program=${F95A:-$PWD/crates/f95a/out/f95a}
shapes="assignments dense declarations names prints wide long"

# Each shape is a function that prints a source of about so many bytes.

# assignments of five terms
source_assignments() {
    awk -v want="$1" 'BEGIN {
        s = "program p\ninteger :: a(9), b(9), c(9)\n"; printf "%s", s; n = length(s)
        while (n < want - 60) { line = "a = b * 3 + c - 12 * a * b + " (n % 1000) "\n"; printf "%s", line; n += length(line) }
        print "print *, a, b, c\nend" }'
}

# the shortest assignments
source_dense() {
    awk -v want="$1" 'BEGIN { print "program p\ninteger :: a(9), b(9)"; for (n = 40; n < want; n += 4) print "a=b"; print "end" }'
}

# declarations of one array each
source_declarations() {
    awk -v want="$1" 'BEGIN {
        n = 20; print "program p"
        for (i = 1; n < want; i++) { line = "integer::a" i "(1)"; print line; n += length(line) + 1 }
        print "end" }'
}

# as many names as a source can use: arrays, and an assignment to each from the one before
source_names() {
    awk -v want="$1" 'BEGIN {
        count = int(want / 34); print "program p"
        for (i = 1; i <= count; i++) print "integer::a" i "(1)"
        for (i = 2; i <= count; i++) print "a" i "=a" (i - 1)
        print "print *,a" count; print "end" }'
}

# records of one array
source_prints() {
    awk -v want="$1" 'BEGIN { print "program p\ninteger :: a(9)"; for (n = 40; n < want; n += 9) print "print*,a"; print "end" }'
}

# records of as many arrays as a line holds
source_wide() {
    awk -v want="$1" 'BEGIN {
        line = "print *,a"; while (length(line) < 131) line = line ",a"
        print "program p\ninteger :: a(9)"; for (n = 40; n < want; n += length(line) + 1) print line; print "end" }'
}

# assignments of as many factors as a line holds
source_long() {
    awk -v want="$1" 'BEGIN {
        line = "a=b"; while (length(line) < 129) line = line (length(line) % 5 == 0 ? "+b" : "*b")
        print "program p\ninteger :: a(9), b(9)"; for (n = 40; n < want; n += length(line) + 1) print line; print "end" }'
}

if [ "${1-}" = texts ]; then
    mkdir -p "$2"
    for name in $shapes; do "source_$name" 16384 > "$2/$name.f95"; done
    exit 0
fi
runs=${1:-3}
[ -x "$program" ] || { echo "build.sh: no program at $program"; exit 1; }
work=$(mktemp -d)
trap 'rm -rf "$work"' EXIT

printf '%-13s %10s %10s %9s %10s %18s\n' shape source text seconds KiB 'times the source'
for size in 131072 1048576; do
    for name in $shapes; do
        "source_$name" $((size - 200)) > "$work/source.f95"
        least=
        most=0
        for _ in $(seq "$runs"); do
            from=$(date +%s%N)
            /usr/bin/time -f %M -o "$work/memory" "$program" build "$work/source.f95" > "$work/text.loopc"
            spent=$(($(date +%s%N) - from))
            if [ -z "$least" ] || [ "$spent" -lt "$least" ]; then least=$spent; fi
            if [ "$(cat "$work/memory")" -gt "$most" ]; then most=$(cat "$work/memory"); fi
        done
        bytes=$(stat -c %s "$work/source.f95")
        awk -v name="$name" -v bytes="$bytes" -v text="$(stat -c %s "$work/text.loopc")" -v least="$least" -v most="$most" 'BEGIN {
            printf "%-13s %10d %10d %9.3f %10d %18.1f\n", name, bytes, text, least / 1e9, most, most * 1024 / bytes }'
    done
done
