#!/usr/bin/env bash
# Times `f95a run` on ten shapes of loops, each beside CPython 3 with the same loop: as a script, and with its names local to a
# function, which CPython reaches faster. Then it times the reading of long texts, and measures the memory of a large block.
# It is run by hand:
#
#   bench/run.sh               five runs of each: some two minutes
#   bench/run.sh 9             nine runs of each
#   F95A=FILE bench/run.sh     the same with another build of the program, as that of an older commit
#   bench/run.sh texts FOLDER  only writes the texts and the scripts into FOLDER, with 10,000 turns each
#
# FILE is a path from the top of the repository. Without it the program must be at crates/f95a/out/f95a (README.md says how it gets
# there). The script needs python3 and GNU time.
#
# A turn is an entry into a loop's body, or a call. Each shape has as many rounds as make 3,000,000 turns in CPython and ten times
# as many in `f95a`, outer loops counted. A shape's time is the least of the runs, less the least time of the same text with no
# rounds: so neither start nor reading is in it. The three take turns within a run, so that a slow moment of the machine meets all
# of them. What a shape prints must be what CPython prints after as many rounds. The table has nanoseconds a turn. Go by its two
# ratios, how many times as long CPython takes: times alone compare machines.
set -eu
export LC_ALL=C
cd "$(dirname "$0")/.."
program=${F95A:-$PWD/crates/f95a/out/f95a}
shapes="long short nested downward while pieces if texts calls stencil"

# For each shape, turns_NAME is the number of turns of a round, loopc_NAME prints the text of so many rounds, and python_NAME
# prints the same in CPython.

# b = b + 3 over 100,000 cells
turns_long=100001
loopc_long() {
    cat << TEXT
/* LoopC 1 */
void f0() {
b0 = f_new(100000);
for (k17 = 0; k17 < $1; k17 = k17 + 1) {
for (k1 = 0; k1 < 100000; k1 = k1 + 1) {
i0 = b0[k1];
i0 = i0 + 3;
b0[k1] = i0;
}
}
i0 = b0[99999];
f_put_int(i0);
f_record();
}
TEXT
}
python_long() {
    cat << 'TEXT'
b = [0] * 100000
for j in range(rounds):
    for k in range(100000):
        b[k] = b[k] + 3
print("", b[99999])
TEXT
}

# the same over 8 cells
turns_short=9
loopc_short() {
    cat << TEXT
/* LoopC 1 */
void f0() {
b0 = f_new(8);
for (k17 = 0; k17 < $1; k17 = k17 + 1) {
for (k1 = 0; k1 < 8; k1 = k1 + 1) {
i0 = b0[k1];
i0 = i0 + 3;
b0[k1] = i0;
}
}
i0 = b0[7];
f_put_int(i0);
f_record();
}
TEXT
}
python_short() {
    cat << 'TEXT'
b = [0] * 8
for j in range(rounds):
    for k in range(8):
        b[k] = b[k] + 3
print("", b[7])
TEXT
}

# the same over 20 by 20 by 20 cells, the first subscript fastest
turns_nested=8421
loopc_nested() {
    cat << TEXT
/* LoopC 1 */
void f0() {
b0 = f_new(8000);
for (k17 = 0; k17 < $1; k17 = k17 + 1) {
for (k3 = 0; k3 < 20; k3 = k3 + 1) {
for (k2 = 0; k2 < 20; k2 = k2 + 1) {
for (k1 = 0; k1 < 20; k1 = k1 + 1) {
i1 = k3 * 20;
i1 = i1 + k2;
i1 = i1 * 20;
i1 = i1 + k1;
i0 = b0[i1];
i0 = i0 + 3;
b0[i1] = i0;
}
}
}
}
i0 = b0[7999];
f_put_int(i0);
f_record();
}
TEXT
}
python_nested() {
    cat << 'TEXT'
b = [0] * 8000
for j in range(rounds):
    for k3 in range(20):
        for k2 in range(20):
            for k1 in range(20):
                p = (k3 * 20 + k2) * 20 + k1
                b[p] = b[p] + 3
print("", b[7999])
TEXT
}

# b(2:1001) = b(1:1000) + 1, stored at once from the last element to the first
turns_downward=1001
loopc_downward() {
    cat << TEXT
/* LoopC 1 */
void f0() {
b0 = f_new(1001);
for (k17 = 0; k17 < $1; k17 = k17 + 1) {
for (k1 = 1000 - 1; k1 >= 0; k1 = k1 - 1) {
i0 = b0[k1];
i0 = i0 + 1;
i1 = k1 + 1;
b0[i1] = i0;
}
}
i0 = b0[1000];
f_put_int(i0);
f_record();
}
TEXT
}
python_downward() {
    cat << 'TEXT'
b = [0] * 1001
for j in range(rounds):
    for k in range(999, -1, -1):
        b[k + 1] = b[k] + 1
print("", b[1000])
TEXT
}

# b = b + 3 over 1,000 cells, counted by a variable
turns_while=1002
loopc_while() {
    cat << TEXT
/* LoopC 1 */
void f0() {
b0 = f_new(1000);
for (k17 = 0; k17 < $1; k17 = k17 + 1) {
i1 = 0;
while (1) {
i2 = 1000 <= i1;
if (i2) {
break;
}
i0 = b0[i1];
i0 = i0 + 3;
b0[i1] = i0;
i1 = i1 + 1;
}
}
i0 = b0[999];
f_put_int(i0);
f_record();
}
TEXT
}
python_while() {
    cat << 'TEXT'
b = [0] * 1000
for j in range(rounds):
    k = 0
    while k < 1000:
        b[k] = b[k] + 3
        k = k + 1
print("", b[999])
TEXT
}

# c = b + 3 and d = c * 2 in one loop over 1,000 cells, each piece with the line of its statement
turns_pieces=1001
loopc_pieces() {
    cat << TEXT
/* LoopC 1 */
void f0() {
b0 = f_new(1000);
b1 = f_new(1000);
b2 = f_new(1000);
for (k17 = 0; k17 < $1; k17 = k17 + 1) {
for (k1 = 0; k1 < 1000; k1 = k1 + 1) {
f_at(4);
i0 = b0[k1];
i0 = i0 + 3;
i0 = f_wrap(i0);
b1[k1] = i0;
f_at(5);
i0 = b1[k1];
i0 = i0 * 2;
i0 = f_wrap(i0);
b2[k1] = i0;
}
}
i0 = b2[999];
f_put_int(i0);
f_record();
}
TEXT
}
python_pieces() {
    cat << 'TEXT'
b = [0] * 1000
c = [0] * 1000
d = [0] * 1000
for j in range(rounds):
    for k in range(1000):
        c[k] = b[k] + 3
        d[k] = c[k] * 2
print("", d[999])
TEXT
}

# a step up at odd places of 1,000 cells, and a step down at even ones
turns_if=1001
loopc_if() {
    cat << TEXT
/* LoopC 1 */
void f0() {
b0 = f_new(1000);
for (k17 = 0; k17 < $1; k17 = k17 + 1) {
for (k1 = 0; k1 < 1000; k1 = k1 + 1) {
i1 = k1 % 2;
if (i1) {
i0 = b0[k1];
i0 = i0 + 3;
b0[k1] = i0;
} else {
i0 = b0[k1];
i0 = i0 - 3;
b0[k1] = i0;
}
}
}
i0 = b0[999];
f_put_int(i0);
i0 = b0[998];
f_put_int(i0);
f_record();
}
TEXT
}
python_if() {
    cat << 'TEXT'
b = [0] * 1000
for j in range(rounds):
    for k in range(1000):
        if k % 2:
            b[k] = b[k] + 3
        else:
            b[k] = b[k] - 3
print("", b[999], b[998])
TEXT
}

# a letter in front of each of 1,000 texts of 8 characters
turns_texts=1001
loopc_texts() {
    cat << TEXT
/* LoopC 1 */
void f0() {
c0 = f_new_text(1000, 8);
for (k17 = 0; k17 < $1; k17 = k17 + 1) {
for (k1 = 0; k1 < 1000; k1 = k1 + 1) {
s0 = c0[k1];
s0 = f_cat("a", s0);
s0 = f_fit(s0, 8);
c0[k1] = s0;
}
}
s0 = c0[999];
f_put_text(s0);
f_record();
}
TEXT
}
python_texts() {
    cat << 'TEXT'
c = [" " * 8] * 1000
for j in range(rounds):
    for k in range(1000):
        c[k] = ("a" + c[k])[:8].ljust(8)
print("", c[999])
TEXT
}

# a call for each of 1,000 cells, with the cell's number and the block
turns_calls=2001
loopc_calls() {
    cat << TEXT
/* LoopC 1 */
void f0() {
b0 = f_new(1000);
for (k17 = 0; k17 < $1; k17 = k17 + 1) {
for (k1 = 0; k1 < 1000; k1 = k1 + 1) {
f1(k1, b0);
}
}
i0 = b0[999];
f_put_int(i0);
f_record();
}
void f1(i0, b1) {
i2 = b1[i0];
i2 = i2 + 3;
b1[i0] = i2;
}
TEXT
}
python_calls() {
    cat << 'TEXT'
def add(i, cells):
    cells[i] = cells[i] + 3
b = [0] * 1000
for j in range(rounds):
    for k in range(1000):
        add(k, b)
print("", b[999])
TEXT
}

# the sum of the four neighbours of each inner cell of 100 by 100, into another block
turns_stencil=9703
loopc_stencil() {
    cat << TEXT
/* LoopC 1 */
void f0() {
b0 = f_new(10000);
b1 = f_new(10000);
for (k33 = 0; k33 < 10000; k33 = k33 + 1) {
b0[k33] = k33;
}
for (k17 = 0; k17 < $1; k17 = k17 + 1) {
for (k2 = 0; k2 < 98; k2 = k2 + 1) {
for (k1 = 0; k1 < 98; k1 = k1 + 1) {
f_at(6);
i1 = k2 * 100;
i1 = i1 + k1;
i2 = i1 + 1;
i0 = b0[i2];
i2 = i1 + 100;
i3 = b0[i2];
i0 = i0 + i3;
i2 = i1 + 102;
i3 = b0[i2];
i0 = i0 + i3;
i2 = i1 + 201;
i3 = b0[i2];
i0 = i0 + i3;
i0 = f_wrap(i0);
i2 = i1 + 101;
b1[i2] = i0;
}
}
}
i0 = b1[9898];
f_put_int(i0);
f_record();
}
TEXT
}
python_stencil() {
    cat << 'TEXT'
b = list(range(10000))
c = [0] * 10000
for j in range(rounds):
    for k2 in range(98):
        for k1 in range(98):
            p = k2 * 100 + k1
            c[p + 101] = b[p + 1] + b[p + 100] + b[p + 102] + b[p + 201]
print("", c[9898])
TEXT
}

write_shape() { # name, turns, folder
    local turns=turns_$1
    echo $(($2 / ${!turns} + 1)) > "$3/$1.rounds"
    "loopc_$1" "$(cat "$3/$1.rounds")" > "$3/$1.loopc"
    "loopc_$1" "$(cat "$3/$1.rounds")0" > "$3/$1.long.loopc"
    "loopc_$1" 0 > "$3/$1.none.loopc"
    { echo 'import sys'; echo 'rounds = int(sys.argv[1])'; "python_$1"; } > "$3/$1.py"
    { echo 'def work():'; sed 's/^/    /' "$3/$1.py"; echo 'work()'; } > "$3/$1.local.py"
}

if [ "${1-}" = texts ]; then
    mkdir -p "$2"
    for name in $shapes; do write_shape "$name" 10000 "$2"; done
    exit 0
fi
runs=${1:-5}
[ -x "$program" ] || { echo "run.sh: no program at $program"; exit 1; }
python=$(python3 -c 'import sys; print(sys.executable)') # and no script that finds it
work=$(mktemp -d)
trap 'rm -rf "$work"' EXIT

least() { # file for the least time in nanoseconds so far, file for the output, command ..
    local least=$1 printed=$2 from spent
    shift 2
    from=$(date +%s%N)
    "$@" > "$printed" < /dev/null
    spent=$(($(date +%s%N) - from))
    if [ ! -s "$least" ] || [ "$spent" -lt "$(cat "$least")" ]; then echo "$spent" > "$least"; fi
}

printf '%-10s %9s %10s %12s %10s %12s %14s\n' shape 'f95a ns' 'script ns' 'function ns' 'million/s' 'script/f95a' 'function/f95a'
for name in $shapes; do
    write_shape "$name" 3000000 "$work"
    rounds=$(cat "$work/$name.rounds")
    "$program" run "$work/$name.loopc" > "$work/ours" < /dev/null
    for _ in $(seq "$runs"); do
        least "$work/$name.ours" "$work/none" "$program" run "$work/$name.long.loopc"
        least "$work/$name.script" "$work/script" "$python" "$work/$name.py" "$rounds"
        least "$work/$name.named" "$work/named" "$python" "$work/$name.local.py" "$rounds"
        least "$work/$name.ours0" "$work/none" "$program" run "$work/$name.none.loopc"
        least "$work/$name.script0" "$work/none" "$python" "$work/$name.py" 0
        least "$work/$name.named0" "$work/none" "$python" "$work/$name.local.py" 0
    done
    cmp "$work/ours" "$work/script"
    cmp "$work/ours" "$work/named"
    turns=turns_$name
    spent() { echo $(($(cat "$work/$name.$1") - $(cat "$work/$name.${1}0"))); } # nanoseconds, less those with no rounds
    all=$((rounds * ${!turns}))
    awk -v name="$name" -v turns="$all" -v ours="$(spent ours)" -v script="$(spent script)" -v named="$(spent named)" 'BEGIN {
        ours = ours / turns / 10; script = script / turns; named = named / turns
        printf "%-10s %9.1f %10.1f %12.1f %10.1f %12.1f %14.1f\n",
            name, ours, script, named, 1e3 / ours, script / ours, named / ours }'
done

# texts of 128 KiB and 1 MiB, of which nothing is executed but the first line
for size in 131072 1048576; do
    awk -v want="$size" 'BEGIN {
        s = "/* LoopC 1 */\nvoid f0() {\nreturn;\n"; printf "%s", s; n = length(s)
        line = "i1 = b3[k1];\ni0 = i0 + i1;\nb2[k1] = i0;\ns1 = f_cat(s2, \"a\\012b\");\n"
        while (n < want - 80) { printf "%s", line; n += length(line) }
        printf "}\n" }' > "$work/text.loopc"
    for _ in 1 2 3; do
        /usr/bin/time -f "text of $size bytes: %e s, %M KiB" "$program" run "$work/text.loopc" < /dev/null 2> "$work/time"
        tail -n 1 "$work/time"
    done
done

# a block of 2^24 cells
printf '/* LoopC 1 */\nvoid f0() {\nb0 = f_new(1);\n}\n' > "$work/small.loopc"
printf '/* LoopC 1 */\nvoid f0() {\nb0 = f_new(16777216);\nb0[16777215] = 1;\n}\n' > "$work/large.loopc"
for name in small large; do
    /usr/bin/time -f "$name block: %e s, %M KiB" "$program" run "$work/$name.loopc" < /dev/null 2> "$work/time"
    tail -n 1 "$work/time"
done
