# shellcheck shell=sh disable=SC2154
# Part of tests/run: the couples of IEEE 802.16 by their formula, in awk; the symbols of a block by the couples, those of an odd number swapped; and P0 to P3
# wherever they may stand.

# couples N P0 P1 P2 P3: the couple of each output
couples() {
    awk -v n="$1" -v p0="$2" -v p1="$3" -v p2="$4" -v p3="$5" 'BEGIN {
        q[0] = 1; q[1] = 1 + n / 2 + p1; q[2] = 1 + p2; q[3] = 1 + n / 2 + p3
        for (j = 0; j < n; j++) print (p0 * j + q[j % 4]) % n
    }'
}

# symbols N P0 P1 P2 P3: the input symbol of each output symbol. Of an odd couple B comes first
symbols() { couples "$@" | awk '{ print 2 * $1 + $1 % 2; print 2 * $1 + 1 - $1 % 2 }'; }

# of_four P0 P1 P2 P3: the named words
of_four() { echo "p0=$1 p1=$2 p2=$3 p3=$4"; }

# lists, of sets with numbers of every kind: even and odd, zeros, all different, the greatest
for row in '24 5 0 0 0' '28 2 1 2 3' '36 11 18 0 18' '60 59 2 56 58' '96 7 48 24 72' '480 53 62 12 2' '2396 2 1 2394 3' '2400 53 66 24 2' '2400 2399 2398 2396 2398'; do
    # shellcheck disable=SC2086
    set -- $row
    couples "$@" >"$work/want"
    # shellcheck disable=SC2046
    ./interleaver list 9 1 "$1" $(of_four "$2" "$3" "$4" "$5") | cmp -s - "$work/want" && [ "$(sort -n "$work/want" | uniq | wc -l)" -eq "$1" ]
    expect "list 9 1 $row by the formula" $?
done

# the request's own list, whose numbers may be left out
[ "$(./interleaver walk 9 1 24 0 8 | tr '\n' ' ')" = '1 18 11 4 21 14 7 0 written 8 next 8 cells 8 ' ]
expect 'the first eight of N 24' $?
couples 24 5 0 0 0 >"$work/want"
./interleaver list 9 1 24 | cmp -s - "$work/want"
expect 'list 9 1 24 without numbers' $?

# the words in another order, and beside others that the profile does not read
couples 28 2 1 2 3 >"$work/want"
./interleaver list 9 p3=3 1 p1=1 28 p0=2 f1=0 f2=99 stream=1 p2=2 | cmp -s - "$work/want"
expect 'P0 to P3 in another order' $?
[ "$(printf '%s\n' 'test 3 1 48 p0=4294967295 p1=0 p2=0 p3=0' 'test 8 1 40 p0=0 p1=0 p2=0 p3=99' 'test 9 1 24 f1=0 f2=0' | ./interleaver lines)" = \
    "$(printf '%s\n' accepted accepted accepted)" ]
expect 'words that a profile does not read' $?

# 10 exactly where two outputs share a couple: every P0 of N 24 and N 28, with P1, P2 and P3 from 0 to 3
awk 'BEGIN { for (n = 24; n < 29; n += 4) for (a = 0; a < n; a++) for (i = 0; i < 64; i++) print n, a, int(i / 16), int(i / 4) % 4, i % 4 }' >"$work/sets"
awk '{
    q[0] = 1; q[1] = 1 + $1 / 2 + $3; q[2] = 1 + $4; q[3] = 1 + $1 / 2 + $5
    split("", seen)
    shared = 0
    for (j = 0; j < $1; j++) shared += seen[($2 * j + q[j % 4]) % $1]++
    print(shared ? "refused 10" : "accepted")
}' "$work/sets" >"$work/want"
sed 's/\([0-9]*\) \([0-9]*\) \([0-9]*\) \([0-9]*\) \([0-9]*\)/test 9 1 \1 p0=\2 p1=\3 p2=\4 p3=\5/' "$work/sets" | ./interleaver lines >"$work/got"
cmp -s "$work/got" "$work/want" && grep -q accepted "$work/want" && grep -q refused "$work/want"
expect '10 of profile 9, all outputs tried' $?

# refusals, each before those that come after it
while IFS=: read -r asked number; do
    # shellcheck disable=SC2086
    [ "$(./interleaver $asked)" = "refused $number" ]
    expect "$asked" $?
done <<'END'
test 10 2 26 stream=2 p0=26 p1=0 p2=0 p3=0:1
test 9 2 26 stream=2 p0=26 p1=0 p2=0 p3=0:2
test 9 1 26 stream=2 p0=26 p1=0 p2=0 p3=0:3 28
test 9 1 20 p0=5 p1=0 p2=0 p3=0:3 24
test 9 1 2401 p0=5 p1=0 p2=0 p3=0:3 0
test 9 1 24 stream=2 p0=24 p1=0 p2=0 p3=0:16
test 9 1 24 p0=24 p1=0 p2=0 p3=0:11
test 9 1 24 p0=5 p1=24 p2=0 p3=0:11
test 9 1 24 p0=5 p1=0 p2=24 p3=0:11
test 9 1 24 p0=0 p1=0 p2=0 p3=24:11
list 9 1 24 p0=5 p1=1 p2=0 p3=0:10
at 9 1 24 24 p0=5 p1=1 p2=0 p3=0:10
at 9 1 24 24:4
to 9 1 24 24:4
walk 9 1 24 25 3:9
back 9 1 24:1
back 9 2 26 stream=2 p0=26 p1=0 p2=0 p3=0:1
combine 9 1 24 samples/reception1.f32:1
combine 9 2 26 samples/none.f32 stream=2 p0=26 p1=0 p2=0 p3=0:1
END

# to and at undo each other
couples 24 5 0 0 0 | sed 's/^/to 9 1 24 /' | ./interleaver lines >"$work/got"
seq 0 23 | cmp -s - "$work/got"
expect 'M of N 24' $?

# cut in slices from any cell, the list is the list
cell=0
: >"$work/got"
while [ "$cell" -lt 2400 ]; do
    ./interleaver walk 9 1 2400 "$cell" 397 p0=53 p1=66 p2=24 p3=2 >"$work/slice"
    sed '$d' "$work/slice" >>"$work/got"
    cell=$(sed -n 's/^written .* next \([0-9]*\) cells .*/\1/p' "$work/slice")
    [ -n "$cell" ] || cell=2400
done
couples 2400 53 66 24 2 | cmp -s - "$work/got"
expect 'walk 9 1 2400 in slices of 397' $?

# Blocks of 2N symbols, by the list of symbols and back: two whole ones, of symbols of a width.
: >"$work/in"
while [ "$(wc -c <"$work/in")" -lt 76800 ]; do cat samples/bulletin.txt >>"$work/in"; done
for row in '1 24 5 0 0 0' '4 24 5 0 0 0' '3 28 2 1 2 3' '1 2400 53 66 24 2' '8 2400 53 66 24 2'; do
    width=${row%% *}
    # shellcheck disable=SC2086
    set -- ${row#* }
    words=$(of_four "$2" "$3" "$4" "$5")
    symbols "$@" >"$work/list"
    head -c $((4 * $1 * width)) "$work/in" >"$work/blocks"
    bytes <"$work/blocks" | awk -v w="$width" 'NR == FNR { s[n++] = $1; next } { x[m++] = $1 } END {
        for (at = 0; at < m; at += n * w) for (t = 0; t < n; t++) for (k = 0; k < w; k++) print x[at + s[t] * w + k]
    }' "$work/list" - >"$work/want"
    # shellcheck disable=SC2086
    ./interleaver interleave 9 1 "$1" "$width" $words <"$work/blocks" >"$work/sent"
    bytes <"$work/sent" | cmp -s - "$work/want"
    expect "interleave $row by the list" $?
    # shellcheck disable=SC2086
    ./interleaver deinterleave 9 1 "$1" "$width" $words <"$work/sent" | cmp -s - "$work/blocks"
    expect "deinterleave $row brings it back" $?
done

# the swap, seen: A and B of couple 1 change places, those of couple 18 do not
printf 'ABCDEFGHIJKLMNOPQRSTUVWXYZabcdefghijklmnopqrstuv' | ./interleaver interleave 9 1 24 >"$work/got"
[ "$(head -c 8 "$work/got")" = 'DCklXWIJ' ]
expect 'couples 1, 18, 11, 4 of N 24' $?

# a block that is too short: N symbols, or one less than 2N, behind a whole one or not; nothing of it is written
for bytes in 24:0 47:0 1:0 49:48 72:48 143:96; do
    head -c "${bytes%:*}" "$work/in" | ./interleaver interleave 9 1 24 >"$work/got" 2>"$work/said"
    [ $? -eq 1 ] && [ "$(wc -c <"$work/got")" -eq "${bytes#*:}" ] && [ "$(cat "$work/said")" = 'refused 5' ]
    expect "interleave 9 1 24, ${bytes%:*} bytes" $?
done
./interleaver interleave 9 1 24 p0=5 p1=1 p2=0 p3=0 <"$work/in" >"$work/got" 2>"$work/said"
[ $? -eq 1 ] && [ ! -s "$work/got" ] && [ "$(cat "$work/said")" = 'refused 10' ]
expect 'interleave of profile 9 refused with 10' $?

# what the table of profiles says, and a picture
row='9        IEEE 802.16 turbo couples    1     1        24 to 2400 by 4; with P0 to P3 from 0 to N - 1'
[ "$(./interleaver profiles | tail -n 1)" = "$row that give no two outputs one couple; N couples are 2N symbols" ]
expect 'profiles has profile 9' $?
./interleaver picture 9 1 28 p0=2 p1=1 p2=2 p3=3 >"$work/got"
sed -n '/stroke-linecap/s/.* d="\(.*\)".*/\1/p' "$work/got" | sed 's/M/\nM/g' | sed 1d >"$work/dots"
couples 28 2 1 2 3 | awk '{ print "M" $1 " " NR - 1 "h0" }' | cmp -s - "$work/dots" && grep -q '<title>profile 9, bits 1, N 28, P0 2, P1 1, P2 2, P3 3: ' "$work/got"
expect 'picture 9 1 28' $?
