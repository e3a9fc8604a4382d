# shellcheck shell=sh disable=SC2154,SC2034
# Part of tests/run: the spatial streams of IEEE 802.11n by its formulas, in awk, and the named word `stream=I` wherever it may stand.

# M of a set, by the two steps and the rotation: profile, bits, stream
rotated() {
    awk -v profile="$1" -v bits="$2" -v stream="$3" 'BEGIN {
        n = (profile == 6 ? 52 : 108) * bits
        d = profile == 6 ? 13 : 18
        s = bits > 1 ? bits / 2 : 1
        turn = ((2 * (stream - 1)) % 3 + 3 * int((stream - 1) / 3)) * (profile == 6 ? 11 : 29) * bits
        for (k = 0; k < n; k++) {
            i = n / d * (k % d) + int(k / d)
            j = s * int(i / s) + (i + n - int(d * i / n)) % s
            print (j - turn + n) % n
        }
    }'
}

# L from M
turned_round() { awk '{ l[$1] = NR - 1 } END { for (t = 0; t < NR; t++) print l[t] }'; }

# every list, both ways
for file in m l lists backs; do : >"$work/$file"; done
for set in '6 1 52' '6 2 104' '6 4 208' '6 6 312' '7 1 108' '7 2 216' '7 4 432' '7 6 648'; do
    for stream in 1 2 3 4; do
        echo "list $set stream=$stream" >>"$work/lists"
        echo "back $set stream=$stream" >>"$work/backs"
        # shellcheck disable=SC2086
        rotated ${set% *} $stream >"$work/one"
        cat "$work/one" >>"$work/m"
        turned_round <"$work/one" >>"$work/l"
    done
done
./interleaver lines <"$work/lists" | cmp -s - "$work/l" && [ "$(wc -l <"$work/l")" -eq 8320 ]
expect 'every L of IEEE 802.11n by the formula' $?
./interleaver lines <"$work/backs" | cmp -s - "$work/m" && [ "$(wc -l <"$work/m")" -eq 8320 ]
expect 'every M of IEEE 802.11n by the formula' $?

# the commands of the request
[ "$(./interleaver test 6 2 104 stream=2)" = accepted ]
expect 'test 6 2 104 stream=2' $?
rotated 7 6 4 | turned_round >"$work/l"
./interleaver list 7 6 648 stream=4 | cmp -s - "$work/l"
expect 'list 7 6 648 stream=4' $?
rotated 6 4 3 | turned_round >"$work/list"
seq 1000000 | head -c $((208 * 4 * 3)) >"$work/in"
od -An -v -tx4 -w4 "$work/in" | awk 'NR == FNR { l[NR - 1] = $1; n = NR; next } { x[FNR - 1] = $1 } END {
    for (b = 0; b < FNR; b += n) for (t = 0; t < n; t++) print x[b + l[t]]
}' "$work/list" - >"$work/want"
./interleaver interleave 6 4 208 stream=3 4 <"$work/in" | od -An -v -tx4 -w4 | tr -d ' ' | cmp -s - "$work/want" && [ "$(wc -l <"$work/want")" -eq 624 ]
expect 'interleave 6 4 208 stream=3 4' $?

# there and back, with the word in another place; and not back in another stream
./interleaver interleave 6 4 208 stream=3 4 <"$work/in" >"$work/there"
./interleaver deinterleave 6 stream=3 4 208 4 <"$work/there" | cmp -s - "$work/in"
expect 'three blocks of 6 4 208 stream=3 there and back' $?
for line in '6 stream=3 4 208 4' '6 4 stream=3 208 4' '6 4 208 4 stream=3'; do
    # shellcheck disable=SC2086
    ./interleaver interleave $line <"$work/in" | cmp -s - "$work/there"
    expect "interleave $line" $?
done
./interleaver deinterleave 6 4 208 4 <"$work/there" >"$work/back"
[ "$(wc -c <"$work/back")" -eq 2496 ] && ! cmp -s "$work/back" "$work/in"
expect 'not back in another stream' $?

# left out, it is stream 1
rotated 6 4 1 | turned_round >"$work/want"
./interleaver list 6 4 208 | cmp -s - "$work/want" && ./interleaver list 6 4 208 stream=1 | cmp -s - "$work/want"
expect 'left out, the stream is 1' $?

# places WANT WORD..: `stream=3` in each place behind the profile, as arguments and as a line of `lines`
places() {
    want=$1
    shift
    for place in $(seq 2 $#); do
        at=0 line=
        for word in "$@"; do
            line="$line$word "
            at=$((at + 1))
            [ "$at" -ne "$place" ] || line="${line}stream=3 "
        done
        # shellcheck disable=SC2086
        ./interleaver $line | cmp -s - "$want" && printf '%s\n' "$line" | ./interleaver lines | cmp -s - "$want"
        expect "$line" $?
    done
}
places "$work/list" list 6 4 208
rotated 6 4 3 >"$work/want"
places "$work/want" back 6 4 208
sed -n 101p "$work/list" >"$work/want"
places "$work/want" at 6 4 208 100
rotated 6 4 3 | sed -n 8p >"$work/want"
places "$work/want" to 6 4 208 7
{ sed -n 201,203p "$work/list"; echo 'written 3 next 203 cells 3'; } >"$work/want"
places "$work/want" walk 6 4 208 200 3
echo 'refused 16' >"$work/want"
places "$work/want" test 3 4 192

# a picture says its stream where that is not 1, and has a dot for each symbol
./interleaver picture 7 6 648 stream=4 >"$work/got"
sed -n '/stroke-linecap/s/.* d="\(.*\)".*/\1/p' "$work/got" | sed 's/M/\nM/g' | sed 1d >"$work/dots"
awk '{ print "M" $1 " " NR - 1 "h0" }' "$work/l" | cmp -s - "$work/dots" && grep -q '<title>profile 7, bits 6, N 648, stream 4: ' "$work/got"
expect 'picture 7 6 648 stream=4' $?

# receptions: the word before the files, between them and behind them, also where they are many
rotated 6 2 2 | turned_round >"$work/list"
set --
for sample in $one $two $three $two $one $three $one; do
    head -c 416 "$sample" >"$work/part$#"
    set -- "$@" "$work/part$#"
done
by_list "$@"
for place in 1 2 3 4 7 10; do
    at=0
    line=
    for word in 6 2 104 "$@"; do
        line="$line $word"
        at=$((at + 1))
        [ "$at" -ne "$place" ] || line="$line stream=2"
    done
    # shellcheck disable=SC2086
    combine $line
    answered && [ "$(wc -l <"$work/got")" -eq 104 ]
    expect "combine with the named word behind word $place" $?
done
# shellcheck disable=SC2086
combine $line stream=2
failed 'interleaver: expected stream= only once'
expect 'combine with a second named word, far behind' $?

# a file whose name holds a `=`, as a path; without a `/` before that it is no file
cp "$work/part0" "$work/a=b"
by_list "$work/part0"
combine 6 2 104 stream=2 "$work/a=b"
answered
expect 'a file with a = in its name' $?
(cd "$work" && "$top/interleaver" combine 6 2 104 ./a=b stream=2) >"$work/got" 2>"$work/said"
status=$?
answered
expect 'the same as ./a=b' $?
(cd "$work" && "$top/interleaver" combine 6 2 104 part0 a=b) >"$work/got" 2>"$work/said"
status=$?
failed 'interleaver: expected stream=I, f1=F, f2=G or p0=A to p3=D as a named word, not a=b'
expect 'the same as a=b, which is a named word' $?
