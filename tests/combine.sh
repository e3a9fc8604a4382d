# shellcheck shell=sh disable=SC2154
# Part of tests/run: receptions from files, added up.

# f32 BITS..: values by their bits, little end first
f32() {
    for bits in "$@"; do
        # shellcheck disable=SC2059
        printf "$(printf '\\%03o' $((bits & 255)) $((bits >> 8 & 255)) $((bits >> 16 & 255)) $((bits >> 24 & 255)))"
    done
}

# combine ARGUMENT..: what the command prints, what it says and its status
combine() {
    ./interleaver combine "$@" >"$work/got" 2>"$work/said"
    status=$?
}

# answered: whether the command printed what is wanted, and nothing was said
answered() { [ "$status" -eq 0 ] && [ ! -s "$work/said" ] && cmp -s "$work/got" "$work/want"; }

# refused WHAT: whether that, behind the word, is all that it printed
refused() { echo "refused $1" >"$work/want"; answered; }

# failed START: whether it printed nothing, and said one line that starts so
failed() { [ "$status" -eq 1 ] && [ ! -s "$work/got" ] && said "$1"; }

# A second computation: values by their bits, each at its index by the list of the set, all of them whole 512ths. A sum of zeros is -0 only where each of
# them is.
of_set() { ./interleaver list "$@" >"$work/list"; }
by_list() {
    for file in "$@"; do od -An -v -tu4 -w4 "$file"; done | awk '
        NR == FNR { l[NR - 1] = $1; n = NR; next }
        $1 % 2147483648 > 2139095040 { next }
        {
            k = l[(FNR - 1) % n]
            e = int($1 / 8388608) % 256
            x = e == 0 ? 0 : ($1 % 8388608 + 8388608) * 2 ^ (e - 150)
            sum[k] += $1 < 2147483648 ? x : -x
            if ($1 != 2147483648) other[k] = 1
            count[k]++
        }
        END {
            for (k = 0; k < n; k++) {
                text = sprintf("%.12f", sum[k])
                sub(/0+$/, "", text)
                sub(/\.$/, "", text)
                if (sum[k] == 0) text = k in other ? "0" : "-0"
                print k (k in count ? " " text " " count[k] : " blank")
            }
        }' "$work/list" - >"$work/want"
}

# The samples. Every kind of line is among what is wanted.
one=samples/reception1.f32 two=samples/reception2.f32 three=samples/reception3.f32
of_set 3 6 288
by_list $one $two $three
for line in '[0-9]* blank' '3 0 2' '6 -0 3' '[0-9]* -[0-9.]* 1' '[0-9]* [0-9.]* 3'; do
    grep -q "^$line\$" "$work/want" || echo "$line"
done >"$work/missing"
combine 3 6 288 $one $two $three
[ ! -s "$work/missing" ] && answered
expect 'three receptions by the list' $?
combine 3 6 288 $three $one $two
answered
expect 'three receptions in another order' $?
by_list $two $two $two
combine 3 6 288 $two $two $two
answered && ! grep -q ' [12]$' "$work/got"
expect 'a reception three times' $?
by_list $one $three
combine 3 6 288 $one $three
answered
expect 'two receptions' $?

# The same values in blocks of other sets, the longest among them.
for set in '1 6 72' '2 4 192' '5 1 40' '5 1 5114'; do
    for sample in $one $two $three; do
        for again in 1 2 3 4 5 6 7 8 9; do cat "$sample" $two; done | head -c $((${set##* } * 4)) >"$work/${sample##*/}"
    done
    set -- "$work/${one##*/}" "$work/${two##*/}" "$work/${three##*/}"
    # shellcheck disable=SC2086
    of_set $set
    by_list "$@"
    # shellcheck disable=SC2086
    combine $set "$@"
    answered && [ "$(wc -l <"$work/got")" -eq "${set##* }" ]
    expect "three receptions of $set" $?
done
of_set 3 6 288

# A file that comes in ragged reads.
by_list $one $two
{
    head -c 131
    sleep 1
    dd bs=131 2>/dev/null
} <$one | ./interleaver combine 3 6 288 /dev/stdin $two 2>"$work/said" | cmp -s - "$work/want" && [ ! -s "$work/said" ]
expect 'a reception in ragged reads' $?

# A block of 12, whose list is 0 to 11: both zeros, not-a-numbers quiet and signalling, and values that take every digit there is.
tiny=0.000000000000000000000000000000000000000000001401298464324817070923729583289916131280261941876515771757068283
least=0.0000000000000000000000000000000000000117549435082228750796873653722224567781866555677208752150875170627841725945
f32 0x00000000 0x80000000 0x7fc00000 0x7f800001 0xffffffff 0x00000001 0x7f7fffff 0x3dcccccd 0xc0400000 0x3fd00000 0x4b7fffff 0x80800000 >"$work/kinds"
cat >"$work/want" <<END
0 0 1
1 -0 1
2 blank
3 blank
4 blank
5 ${tiny}88979108268586060148663818836212158203125 1
6 340282346638528859811704183484516925440 1
7 0.100000001490116119384765625 1
8 -3 1
9 1.625 1
10 16777215 1
11 -${least}47271728515625 1
END
combine 1 1 12 "$work/kinds"
answered
expect 'values of every kind, exactly' $?

# Two of them: what rounds, rounds once for each value after the first.
f32 0x80000000 0x80000000 0x40000000 0xff800001 0x7fc00000 0x80000001 0xff7fffff 0x3dcccccd 0x40400000 0x33800000 0x40000000 0x00800000 >"$work/again"
cat >"$work/want" <<END
0 0 2
1 -0 2
2 2 1
3 blank
4 blank
5 0 2
6 0 2
7 0.20000000298023223876953125 2
8 0 2
9 1.625 2
10 16777216 2
11 0 2
END
combine 1 1 12 "$work/kinds" "$work/again"
answered
expect 'zeros, blanks and roundings' $?

# More files than may be open at a time.
set --
while [ $# -lt 100 ]; do set -- "$@" $one; done
# shellcheck disable=SC3045
(ulimit -n 50 && ./interleaver combine 3 6 288 "$@") >"$work/got" 2>"$work/said"
status=$?
by_list "$@"
answered && [ "$(grep -c ' 100$' "$work/got")" -gt 200 ]
expect 'a hundred files' $?

# A file of another length: shorter, longer, by a part of a value, empty, without an end; alone and after one that is right.
cat $one $one >"$work/long"
for bytes in 0 1 3 4 1148 1149 1151 1153 1155 1156 1160 2304; do
    head -c $bytes "$work/long" >"$work/part"
    combine 3 6 288 "$work/part"
    refused 5
    expect "a file of $bytes bytes" $?
done
combine 3 6 288 $one "$work/part"
refused 5
expect 'a file of another length after one that is right' $?
combine 3 6 288 /dev/zero
refused 5
expect 'a file without an end' $?

# What is not finite: an infinity of each sign, and a sum past the largest value.
f32 0x7f800000 0 0 0 0 0 0 0 0 0 0 0 >"$work/high"
f32 0 0 0 0 0 0 0 0 0 0 0 0xff800000 >"$work/low"
f32 0 0 0 0 0 0 0 0 0 0 0 0x7f7fffff >"$work/largest"
for file in high low; do
    combine 1 1 12 "$work/$file"
    refused 13
    expect "an infinity: $file" $?
done
combine 1 1 12 "$work/largest"
[ "$(tail -n 1 "$work/got")" = '11 340282346638528859811704183484516925440 1' ]
expect 'the largest value' $?
combine 1 1 12 "$work/largest" "$work/largest"
refused 13
expect 'the largest value twice' $?

# Each set that is not listed is refused before a file is opened.
for set in '10 1 48:1' '3 3 48:2' '3 6 287:3 288' '5 1 39:3 40'; do
    # shellcheck disable=SC2086
    combine ${set%:*} "$work/none"
    refused "${set#*:}"
    expect "the set ${set%:*}" $?
done

# What cannot be opened or read, alone and after a file that is right; and a path that there is no room for.
path=$work/none
combine 3 6 288 "$path"
failed "interleaver: opening $path: "
expect 'a file that is not there' $?
combine 3 6 288 $one "$path"
failed "interleaver: opening $path: "
expect 'a second file that is not there' $?
combine 3 6 288 "$work"
failed "interleaver: reading $work: "
expect 'a folder' $?
while [ ${#path} -lt 500 ]; do path=$path/../none; done
combine 3 6 288 "$path"
failed 'interleaver: opening '
expect 'a long path' $?
path=$work/././././././././././././././././././././././././././././././././././
while [ ${#path} -lt 1010 ]; do path=$path././; done
while [ ${#path} -lt 1020 ]; do path=$path/; done
cp $one "$work/file"
combine 3 6 288 "${path}file"
by_list $one
answered
expect 'a path of 1,024 bytes' $?
combine 3 6 288 "$path/file"
failed 'interleaver: expected FILE, a path of 1 to 1,024 bytes'
expect 'a path of 1,025 bytes' $?
