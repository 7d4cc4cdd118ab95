#!/usr/bin/env bash
# Times how long `f95a build` reads, on sources of five shapes, of 256 KiB, 512 KiB and 1 MiB, the longest that a source may be, and
# measures its memory, also as a multiple of the source. It is run by hand:
#
#   bench/read.sh               three runs of each
#   bench/read.sh 7             seven runs of each
#   F95A=FILE bench/read.sh     the same with another build of the program, as that of an older commit
#   bench/read.sh texts FOLDER  only writes the sources into FOLDER, of 16 KiB each
#
# FILE is a path from the top of the repository. Without it the program must be at crates/f95a/out/f95a (README.md says how it gets
# there). The script needs GNU time.
#
# The time is the least of the runs, from the start of the program to its end; the memory is the most that a run held. Where a source
# is built, its text is written to a file, and that time is in it. The note shows what became of the source: one that is refused by
# phase 3 was read whole. `growth` is how many times as long as half the source takes.
#
# At the end it says what is too much, and its status is 1 then: 1 s or more for 1 MiB, more than 64 times the source in memory, or
# a growth of 3 or more from 512 KiB to 1 MiB.
set -eu
export LC_ALL=C
cd "$(dirname "$0")/.."
program=${F95A:-$PWD/crates/f95a/out/f95a}
shapes="ordinary words long blocks broken"

# Each shape is a function that prints a source of about so many bytes, and no more.

# as it is mostly written: comments, blank lines, indents, both cases, a continued line
source_ordinary() {
    awk -v want="$1" 'BEGIN {
        s = "! Sums of rows.\nPROGRAM sums\n  INTEGER :: first(100), second(100), total(100)\n\n"; printf "%s", s; n = length(s)
        for (i = 1; n < want - 300; i++) {
            s = "  ! step " i "\n  first = 3 * second + " (i % 1000) "\n  second = first * first - 2 * total + 1\n"
            s = s "  Total = total + first * second &\n       - 12 * second\n\n"
            if (i % 8 == 0) s = s "  PRINT *, first, total\n"
            printf "%s", s; n += length(s)
        }
        print "END PROGRAM sums" }'
}

# one word each, the most statements that there may be; they nest, and P47 refuses the first
source_words() {
    awk -v want="$1" 'BEGIN { print "program p"; for (n = 20; n < want; n += 5) print "stop"; print "end" }'
}

# assignments of 40 full lines, so that their trees are as deep as a tree gets
source_long() {
    awk -v want="$1" 'BEGIN {
        first = "a=b"; while (length(first) < 131) first = first "+b"; first = first "&"
        more = "+b"; while (length(more) < 130) more = more "+b"; more = more "&"
        last = "+b"; while (length(last) < 132) last = last "+b"
        print "program p\ninteger :: a(9), b(9)"
        for (n = 40; n < want - 5400; n += 2 * 133 + 38 * 132) {
            print first; for (i = 0; i < 38; i++) print more; print last
        }
        print "end" }'
}

# 64 blocks in one another, time and again; P47 refuses the first
source_blocks() {
    awk -v want="$1" 'BEGIN {
        print "program p"
        for (n = 20; n < want - 1400; n += 64 * 9 + 1) {
            for (i = 0; i < 64; i++) print "do"; print ""; for (i = 0; i < 64; i++) print "enddo"
        }
        print "end" }'
}

# each statement breaks a rule, and the first of all that are found is told
source_broken() {
    awk -v want="$1" 'BEGIN { print "program p"; for (n = 20; n < want; n += 3) print "a="; print "end" }'
}

if [ "${1-}" = texts ]; then
    mkdir -p "$2"
    for name in $shapes; do "source_$name" 16384 > "$2/$name.f95"; done
    exit 0
fi
runs=${1:-3}
[ -x "$program" ] || { echo "read.sh: no program at $program"; exit 1; }
work=$(mktemp -d)
trap 'rm -rf "$work"' EXIT

printf '%-10s %9s %9s %7s %9s %17s  %s\n' shape source seconds growth KiB 'times the source' note
for name in $shapes; do
    before=
    for size in 262144 524288 1048576; do
        "source_$name" $((size - 200)) > "$work/source.f95"
        least=
        most=0
        for _ in $(seq "$runs"); do
            from=$(date +%s%N)
            /usr/bin/time -q -f %M -o "$work/memory" "$program" build "$work/source.f95" > "$work/text.loopc" 2> "$work/note" || true
            spent=$(($(date +%s%N) - from))
            if [ -z "$least" ] || [ "$spent" -lt "$least" ]; then least=$spent; fi
            if [ "$(cat "$work/memory")" -gt "$most" ]; then most=$(cat "$work/memory"); fi
        done
        bytes=$(stat -c %s "$work/source.f95")
        awk -v name="$name" -v bytes="$bytes" -v least="$least" -v before="$before" -v most="$most" -v note="$(cat "$work/note")" \
            -v too_much="$work/too_much" 'BEGIN {
            growth = before == "" ? "" : sprintf("%.1f", least / before)
            times = most * 1024 / bytes
            printf "%-10s %9d %9.3f %7s %9d %17.1f  %s\n", name, bytes, least / 1e9, growth, most, times, note
            if (bytes > 1000000 && least >= 1e9) print name ": 1 s or more" >> too_much
            if (bytes > 1000000 && times > 64) print name ": more than 64 times the source" >> too_much
            if (bytes > 1000000 && growth >= 3) print name ": a growth of 3 or more" >> too_much }'
        before=$least
    done
done
if [ -e "$work/too_much" ]; then cat "$work/too_much"; exit 1; fi
