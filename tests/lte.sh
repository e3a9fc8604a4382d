# shellcheck shell=sh disable=SC2154
# Part of tests/run: LTE's turbo interleaver by its formula, in awk, with its own factors and with others, and f1 and f2 wherever they may stand.

# L of a block of K with f1 and f2
quadratic() {
    awk -v k="$1" -v a="$2" -v b="$3" 'BEGIN { for (t = 0; t < k; t++) print (a * t + b * t * t) % k }'
}

# some rows of 3GPP TS 36.212 table 5.1.3-3: on both sides of each change of the step, and the last
for row in '40 3 10' '48 7 12' '504 55 84' '512 31 64' '528 17 66' '1024 31 64' '1056 17 66' '2048 31 64' '2112 17 66' '6080 47 190' '6144 263 480'; do
    # shellcheck disable=SC2086
    set -- $row
    [ "$(./interleaver factors "$1")" = "$2 $3" ]
    expect "factors $1" $?
    quadratic "$1" "$2" "$3" >"$work/want"
    ./interleaver list 8 1 "$1" | cmp -s - "$work/want"
    expect "list 8 1 $1 by the standard" $?
done

# other factors than the standard's, and the words in another order
quadratic 40 7 30 >"$work/want"
./interleaver list 8 f2=30 1 40 f1=7 | cmp -s - "$work/want"
expect 'list 8 1 40 with 7 and 30' $?

# 188 sizes are listed. (Which, tests/fitting.sh tries)
seq 1 6200 | sed 's/^/test 8 1 /' | ./interleaver lines >"$work/got"
[ "$(grep -c accepted "$work/got")" -eq 188 ]
expect '188 sizes of profile 8' $?

# to and at undo each other
./interleaver lines >"$work/got" <<END
$(quadratic 40 3 10 | awk '{ print "to 8 1 40", $1 }')
END
awk 'BEGIN { for (t = 0; t < 40; t++) print t }' | cmp -s - "$work/got"
expect 'M of K 40' $?

# cut in slices from any cell, the list is the list
cell=0
: >"$work/got"
while [ "$cell" -lt 504 ]; do
    ./interleaver walk 8 1 504 "$cell" 97 >"$work/slice"
    sed '$d' "$work/slice" >>"$work/got"
    cell=$(sed -n 's/^written .* next \([0-9]*\) cells .*/\1/p' "$work/slice")
    [ -n "$cell" ] || cell=504
done
quadratic 504 55 84 | cmp -s - "$work/got"
expect 'walk 8 1 504 in slices of 97' $?

# blocks there and back, of bytes and of soft values
head -c 6144 samples/bulletin.txt >"$work/in" 2>/dev/null
while [ "$(wc -c <"$work/in")" -lt 6144 ]; do cat samples/bulletin.txt >>"$work/in"; done
head -c 6144 "$work/in" >"$work/block"
./interleaver interleave 8 1 6144 <"$work/block" >"$work/sent"
! cmp -s "$work/sent" "$work/block"
expect 'interleave 8 1 6144 moves' $?
./interleaver deinterleave 8 1 6144 f1=263 f2=480 <"$work/sent" | cmp -s - "$work/block"
expect 'interleave 8 1 6144 there and back' $?
head -c 320 "$work/block" | ./interleaver interleave 8 1 40 4 | ./interleaver deinterleave 8 1 40 4 >"$work/got"
head -c 320 "$work/block" | cmp -s - "$work/got"
expect 'interleave 8 1 40 of 4 bytes, there and back' $?

# a filter's refusal is said on standard error
./interleaver interleave 8 1 40 f1=3 f2=8 <"$work/block" >"$work/got" 2>"$work/said"
[ $? -eq 1 ] && [ ! -s "$work/got" ] && [ "$(cat "$work/said")" = 'refused 10' ]
expect 'interleave refused with 10' $?

# receptions of profile 8 are added up: forty zeros are forty values
head -c 160 /dev/zero >"$work/zeros.f32"
./interleaver combine 8 1 40 "$work/zeros.f32" "$work/zeros.f32" >"$work/got"
awk 'BEGIN { for (t = 0; t < 40; t++) print t, 0, 2 }' | cmp -s - "$work/got"
expect 'combine 8 1 40' $?
