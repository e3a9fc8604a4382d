# shellcheck shell=sh disable=SC2154
# Part of tests/run: the padding report. Its figures are held to 3GPP TS 25.212 4.2.3.2.3.1 as it is printed, in awk; its two lines to request 11; and
# what it leaves in standard input to what it may take.

# the report from one K to another
report() {
    awk -v first="$1" -v last="$2" '
    function prime(x, d) {
        for (d = 2; d * d <= x; d++) if (x % d == 0) return 0
        return 1
    }
    BEGIN {
        print "K R C cells pads"
        for (k = first; k <= last; k++) {
            own = k >= 481 && k <= 530
            r = k <= 159 ? 5 : k <= 200 || own ? 10 : 20
            for (p = 7; !own && (k > r * (p + 1) || !prime(p)); p++) ;
            if (own) p = 53
            c = own ? p : k <= r * (p - 1) ? p - 1 : k <= r * p ? p : p + 1
            print k, r, c, r * c, r * c - k
            sizes++
            cells += r * c
            pads += r * c - k
        }
        print "total", sizes, cells, pads
    }'
}

# gives NAME BYTES WANT LEFT: what the bytes give (printf writes them), and what is left of them in standard input
gives() {
    # shellcheck disable=SC2059
    printf "$2" | {
        ./interleaver padding >"$work/got" 2>"$work/said"
        status=$?
        cat >"$work/left"
        [ "$status" -eq 0 ]
    } && [ ! -s "$work/said" ] && printf '%s\n' "$3" | cmp -s - "$work/got" && printf "$4" | cmp -s - "$work/left"
    expect "padding of $1" $?
}
two=$(printf 'K R C cells pads\n40 5 8 40 0\n41 5 10 50 9\ntotal 2 90 9')
forty=$(printf 'K R C cells pads\n40 5 8 40 0\ntotal 1 40 0')

# the request's example; the second line may end with the input, and nothing behind it is taken
gives '40 and 41' '40\n41\n' "$two" ''
gives 'a second line without LF' '40\n41' "$two" ''
gives 'text behind the second line' '40\n41\n42\nand more' "$two" '42\nand more'
gives 'an empty line behind the second' '40\n41\n\n' "$two" '\n'
gives '40 and 40' '40\n40\n' "$forty" ''
gives '5114 and 5114' '5114\n5114\n' "$(report 5114 5114)" ''
gives '5114 and 5114 without LF' '5114\n5114' "$(report 5114 5114)" ''
gives 'four digits, noughts first' '0040\n0041\n' "$two" ''
gives 'three digits, noughts first' '040\n041\n' "$two" ''

# no range
gives '41 and 40' '41\n40\n' 'refused 3' ''
gives '39 and 40' '39\n40\n' 'refused 3' '40\n'
gives '40 and 39' '40\n39\n' 'refused 3' ''
gives '40 and 5115' '40\n5115\n' 'refused 3' ''
gives '5115 and 5115' '5115\n5115\n' 'refused 3' '5115\n'
gives '0 and 0' '0\n0\n' 'refused 3' '0\n'
gives '9999 and 9999' '9999\n9999\n' 'refused 3' '9999\n'

# no two lines: what decides is the last byte that is taken
gives 'five digits' '00040\n41\n' 'refused 3' '\n41\n'
gives 'five digits in the second line' '40\n00041\n' 'refused 3' '\n'
gives 'five digits that end with the input' '40\n00041' 'refused 3' ''
gives 'four digits, then five' '1000\n20005\n' 'refused 3' '\n'
gives 'an empty first line' '\n41\n' 'refused 3' '41\n'
gives 'an empty second line' '40\n\n41\n' 'refused 3' '41\n'
gives 'two empty lines' '\n\n' 'refused 3' '\n'
gives 'a space between digits' '4 0\n41\n' 'refused 3' '0\n41\n'
gives 'a space before digits' ' 40\n41\n' 'refused 3' '40\n41\n'
gives 'a space behind digits' '40 \n41\n' 'refused 3' '\n41\n'
gives 'a CR before the first LF' '40\r\n41\r\n' 'refused 3' '\n41\r\n'
gives 'a CR before the second LF' '40\n41\r\n' 'refused 3' '\n'
gives 'no second line' '40\n' 'refused 3' ''
gives 'a first line without LF' '40' 'refused 3' ''
gives 'nothing at all' '' 'refused 3' ''
gives 'both on one line' '40 41\n' 'refused 3' '41\n'
gives 'a sign' '+40\n41\n' 'refused 3' '40\n41\n'
gives 'a minus' '40\n-41\n' 'refused 3' '41\n'
gives 'letters' '40\nforty-one\n' 'refused 3' 'orty-one\n'
gives 'a slash, the byte below the digits' '4/\n41\n' 'refused 3' '\n41\n'
gives 'a colon, the byte above the digits' '40\n4:\n' 'refused 3' '\n'
gives 'a zero byte' '40\0\n41\n' 'refused 3' '\n41\n'
gives 'a byte above 127' '40\n41\377\n' 'refused 3' '\n'

# every size, as awk has it; some ranges across the changes of R and C
report 40 5114 >"$work/want"
printf '40\n5114\n' | ./interleaver padding | cmp -s - "$work/want"
expect 'padding of all sizes' $?
[ "$(tail -n 1 "$work/want")" = 'total 5075 13265345 187070' ]
expect 'the totals of all sizes' $?
for range in '150 210' '470 540' '2270 2290' '5000 5114'; do
    printf '%s\n%s\n' "${range% *}" "${range#* }" | ./interleaver padding >"$work/got"
    report "${range% *}" "${range#* }" | cmp -s - "$work/got"
    expect "padding of $range" $?
done

# the picture of all sizes is the one that README.md shows; what is no report draws none
tools/padding-picture <"$work/want" >"$work/got" 2>"$work/said"
cmp -s "$work/got" docs/pictures/padding.svg && [ ! -s "$work/said" ]
expect 'the picture of the padding' $?
echo 'refused 3' | tools/padding-picture >"$work/got" 2>"$work/said"
[ $? -eq 1 ] && [ ! -s "$work/got" ] && said 'padding-picture: expected a padding report, not refused 3'
expect 'no picture of a refusal' $?

# the figures of a K are those of its lists: as many cells walked, and as many of them padding
for k in 40 41 480 481 530 531 2281 5114; do
    line=$(printf '%s\n%s\n' "$k" "$k" | ./interleaver padding | sed -n 2p)
    cells=$(./interleaver walk 5 1 "$k" 0 6000 | sed -n 's/.* cells //p')
    # shellcheck disable=SC2086
    set -- $line
    [ "${1:-}" = "$k" ] && [ "${4:-}" = "$cells" ] && [ "${5:-}" = $((cells - k)) ]
    expect "cells and padding of $k as they are walked" $?
done

# nothing is waited for behind the byte that decides, which is the last of each: a pipe that stays open, as a person's terminal does
waits() {
    mkfifo "$work/pipe"
    exec 5<>"$work/pipe"
    # shellcheck disable=SC2059
    printf "$2" >&5
    timeout 10 ./interleaver padding <"$work/pipe" >"$work/got" 2>&1
    printf '%s\n' "$3" | cmp -s - "$work/got"
    expect "padding of $1 waits for nothing" $?
    exec 5>&-
    rm "$work/pipe"
}
waits '40 and 41' '40\n41\n' "$two"
waits '39' '39\n' 'refused 3'
waits 'a space' '4 ' 'refused 3'
waits 'five digits' '00040' 'refused 3'
waits 'an empty line' '\n' 'refused 3'
waits 'an empty second line' '40\n\n' 'refused 3'
waits 'five digits in the second line' '40\n00041' 'refused 3'
waits 'a CR' '40\n41\r' 'refused 3'

# under a second for all sizes, where the machine is the program's own
if [ "$(uname -m)" = x86_64 ]; then
    printf '40\n5114\n' >"$work/all"
    timeout 1 ./interleaver padding <"$work/all" >/dev/null
    expect 'padding of all sizes in under a second' $?
fi

# a read or a write that fails is told, and a read that fails prints nothing
timeout 10 ./interleaver padding <"$work" >"$work/got" 2>"$work/said"
[ $? -eq 1 ] && [ ! -s "$work/got" ] && said 'interleaver: reading'
expect 'padding of what cannot be read' $?
printf '40\n5114\n' | ./interleaver padding >/dev/full 2>"$work/said"
[ $? -eq 1 ] && said 'interleaver: writing'
expect 'padding to a full device' $?

# the program by itself gives the same
(cd crates/padding && rt run) >/dev/null 2>&1 </dev/null
tools=${RATTLE_HOME:-$(dirname "$(dirname "$(readlink -f "$(command -v rt)")")")}/toolchain
printf '40\n41\nmore' | {
    "$tools/lib/ld-linux-x86-64.so.2" --library-path "$tools/lib" crates/padding/out/padding && cat
} >"$work/got"
printf '%s\nmore' "$two" | cmp -s - "$work/got"
expect 'the program padding by itself' $?
