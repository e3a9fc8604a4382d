# shellcheck shell=sh disable=SC2154
# Part of tests/run: whole files through the filters.

size=6291456
seq 1000000 | head -c $size >"$work/six"

# bytes of a file as numbers, one a line
bytes() { od -An -v -tu1 -w1 | tr -d ' '; }

# A stream by its closed form: output byte t is input byte t less branches times step for each branch to wait for, or the fill where there is none.
# by_formula BRANCHES STEP FILL BACK
by_formula() {
    bytes <"$work/in" | awk -v branches="$1" -v step="$2" -v fill="$3" -v back="$4" '{ x[NR - 1] = $1 } END {
        for (t = 0; t < NR; t++) {
            branch = back ? branches - 1 - t % branches : t % branches
            from = t - branches * step * branch
            print from < 0 ? fill : x[from]
        }
    }' >"$work/want"
}

# came_back FILE LATE: whether the 6 MB are in the file, as long and so many bytes late
came_back() { tail -c +$(($2 + 1)) "$1" | cmp -s - "$work/six" -n $((size - $2)) && [ "$(wc -c <"$1")" -eq $size ]; }

# streams KIND BRANCHES STEP LATE: by the closed form, and 6 MB through both machines, the second time in ragged reads
streams() {
    head -c 30000 "$work/six" >"$work/in"
    by_formula "$2" "$3" 65 0
    ./interleaver "$1" interleave 65 <"$work/in" | bytes | cmp -s - "$work/want"
    expect "$1 interleave by the closed form" $?
    by_formula "$2" "$3" 66 1
    ./interleaver "$1" deinterleave 66 <"$work/in" | bytes | cmp -s - "$work/want"
    expect "$1 deinterleave by the closed form" $?
    ./interleaver "$1" interleave 0 <"$work/six" | ./interleaver "$1" deinterleave 0 >"$work/back"
    came_back "$work/back" "$4"
    expect "$1: a stream of 6 MB comes back, $4 bytes late" $?
    [ "$(head -c "$4" "$work/back" | tr -d '\000' | wc -c)" -eq 0 ]
    expect "$1: the fill comes first" $?
    dd if="$work/six" bs=777 2>/dev/null | ./interleaver "$1" interleave 65 | dd bs=131 2>/dev/null | ./interleaver "$1" deinterleave 65 >"$work/ragged"
    [ "$(head -c "$4" "$work/ragged" | tr -d A | wc -c)" -eq 0 ] && came_back "$work/ragged" "$4"
    expect "$1: the same in ragged reads, behind another fill" $?
}
streams dvb 12 17 2244
streams atsc 52 4 10608

# Through the machines of two kinds nothing comes back.
./interleaver dvb interleave 0 <"$work/six" | ./interleaver atsc deinterleave 0 >"$work/back"
[ "$(wc -c <"$work/back")" -eq $size ] && ! came_back "$work/back" 2244 && ! came_back "$work/back" 10608
expect 'not back through the other kind' $?

# Blocks of every width, there and back.
for set in '1 1 24' '3 6 288' '5 1 5114'; do
    for width in 1 2 3 4 5 6 7 8; do
        head -c $((${set##* } * width * 3)) "$work/six" >"$work/in"
        # shellcheck disable=SC2086
        ./interleaver interleave $set $width <"$work/in" >"$work/there"
        # shellcheck disable=SC2086
        ./interleaver deinterleave $set $width <"$work/there" | cmp -s - "$work/in" && ! cmp -s "$work/there" "$work/in"
        expect "blocks of $set, width $width" $?
    done
done

# A hundred blocks, each by the list.
head -c 28800 "$work/six" >"$work/in"
./interleaver list 3 6 288 >"$work/list"
bytes <"$work/in" | awk 'NR == FNR { l[NR - 1] = $1; next } { x[FNR - 1] = $1 } END {
    for (b = 0; b < FNR; b += 288) for (t = 0; t < 288; t++) print x[b + l[t]]
}' "$work/list" - >"$work/want"
./interleaver interleave 3 6 288 <"$work/in" | bytes | cmp -s - "$work/want"
expect 'a hundred blocks by the list' $?

# The same, in a pipe that stops in the middle of blocks: a block takes as many reads as it needs.
{
    head -c 131
    sleep 1
    dd bs=131 2>/dev/null
} <"$work/in" | ./interleaver interleave 3 6 288 2>"$work/said" | bytes | cmp -s - "$work/want" && [ ! -s "$work/said" ]
expect 'a hundred blocks in ragged reads' $?

# f32 values of every kind by their bits, against the list: NaNs quiet and signalling, infinities, both zeros, denormals.
od -An -v -tx4 -w4 samples/soft.f32 | tr -d ' ' >"$work/words"
./interleaver interleave 3 6 288 4 <samples/soft.f32 | od -An -v -tx4 -w4 | tr -d ' ' >"$work/got"
awk 'NR == FNR { word[NR - 1] = $1; next } { print word[$1] }' "$work/words" "$work/list" >"$work/want"
[ "$(wc -l <"$work/want")" -eq 288 ] && cmp -s "$work/got" "$work/want"
expect 'f32 values go by the list, bit for bit' $?

# A short last block: the whole ones before it are written, nothing of it is.
head -c 700 "$work/six" | ./interleaver interleave 3 6 288 2>"$work/said" >"$work/out"
[ $? -eq 1 ] && [ "$(cat "$work/said")" = 'refused 5' ] && [ "$(wc -c <"$work/out")" -eq 576 ]
expect 'nothing of a short last block is written' $?

# A read that fails is said, and nothing is written.
for filter in 'interleave 3 6 288' 'deinterleave 5 1 5114 4' 'dvb interleave 0' 'dvb deinterleave 0' 'atsc interleave 0' 'atsc deinterleave 0'; do
    # shellcheck disable=SC2086
    ./interleaver $filter <"$work" >"$work/out" 2>"$work/said"
    [ $? -eq 1 ] && said 'interleaver: reading: ' && [ ! -s "$work/out" ]
    expect "$filter from a folder" $?
done

# A program that dies gives its status. (Where it is emulated, its stack is the emulator's to give.)
# shellcheck disable=SC3045
(ulimit -s 64 && QEMU_STACK_SIZE=65536 ./interleaver interleave 3 6 288 <samples/bulletin.txt >/dev/null 2>&1)
[ $? -gt 2 ]
expect 'a stack that is too small gives a status' $?
