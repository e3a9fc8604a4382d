# shellcheck shell=sh disable=SC2154
# Part of tests/run: plan files. Files are made here byte by byte; what `plans` writes is held to the lists that `list` prints, put together by awk.

# bytes: the bytes of the numbers that follow, in octal for printf: 4 each for a header's, 2 each behind a word `/`
bytes() {
    awk 'BEGIN {
        wide = 4
        for (k = 1; k < ARGC; k++) {
            if (ARGV[k] == "/") { wide = 2; continue }
            for (j = wide - 1; j >= 0; j--) printf "\\%03o", int(ARGV[k] / 256 ^ j) % 256
        }
    }' "$@"
}

# made NAME NUMBER..: the file of those bytes
made() {
    name=$1
    shift
    # shellcheck disable=SC2059
    printf "$(bytes "$@")" >"$work/$name"
}

# answers COMMAND..: what it says, on either output
answers() { ./interleaver "$@" 2>&1; }

# judged NAME WANT: what `judge` says of a file
judged() { [ "$(answers judge "$work/$1")" = "$2" ]; }

# the request's own example, to the letter, either way round, and a file beside itself
made one 1 3 1 48 24 2 / 0 16
made other 1 3 1 48 24 2 / 0 17
[ "$(answers differ "$work/one" "$work/other")" = 'plan 1 at 1: 16 17
differences 1' ]
expect 'differ: addresses 0, 16 and 0, 17' $?
[ "$(answers differ "$work/other" "$work/one")" = 'plan 1 at 1: 17 16
differences 1' ]
expect 'differ: the other way round' $?
[ "$(answers differ "$work/one" "$work/one")" = 'differences 0' ]
expect 'differ: a file beside itself' $?
made longer 2 3 1 48 44 3 3 1 48 50 0 / 0 16 32
[ "$(answers differ "$work/one" "$work/longer")" = 'plan 1 at 2: - 32
plan 2 missing
differences 2' ]
expect 'differ: a place and a plan that one file lacks' $?
made headed 1 3 2 48 24 2 / 9 9
[ "$(answers differ "$work/one" "$work/headed")" = 'plan 1 header
differences 1' ]
expect 'differ: other bits, and no set tested' $?
made unlisted 1 9 9 9 24 0
[ "$(answers differ "$work/unlisted" "$work/unlisted")" = 'differences 0' ]
expect 'differ: a set that is refused' $?
for pair in 'one none' 'none one' 'none none'; do
    # shellcheck disable=SC2086
    set -- $pair
    [ "$(answers differ "$work/$1" "$work/$2")" = 'refused 12' ]
    expect "differ: $1 and $2, one of which is not there" $?
done

# judge: what a person asks for, from the sample
[ "$(answers judge samples/harbour.plan)" = 'plan 1 equal
plan 2 wrong 5 2
plan 3 refused 3 192
plan 4 wrong 38 2
plan 5 wrong 40 3
plan 6 refused 1
plan 7 equal' ]
expect 'judge samples/harbour.plan' $?
./interleaver judge "$work/none" >"$work/got" 2>"$work/said"
[ $? -eq 0 ] && [ "$(cat "$work/got")" = 'refused 12' ] && [ ! -s "$work/said" ]
expect 'judge: no such file' $?
judged . 'refused 12'
expect 'judge: a folder' $?

# sets that plan files don't know, or that are refused: profile, bits, N are taken whole
for row in '0 1 48 1' '6 1 52 1' '8 1 40 1' '261 1 40 1' '4294967295 1 48 1' '3 3 48 2' '3 257 48 2' '3 1 49 3_0' '3 1 65584 3_0' '5 1 39 3_40'; do
    # shellcheck disable=SC2086
    set -- $row
    made set 1 "$1" "$2" "$3" 24 1 / 0
    judged set "plan 1 refused $(echo "$4" | tr _ ' ')"
    expect "judge: set $1 $2 $3" $?
done

# a good file, cut at every byte; then with a byte too many, and two
made good 2 3 1 48 44 2 5 1 40 48 3 / 0 16 0 0 0
size=$(wc -c <"$work/good")
judged good 'plan 1 wrong 2 46
plan 2 wrong 0 40'
expect 'judge: the good file' $?
cut=0
wrong=0
while [ "$cut" -lt "$size" ]; do
    head -c "$cut" "$work/good" >"$work/cut"
    judged cut 'refused 12' || wrong=$((wrong + 1))
    cut=$((cut + 1))
done
expect "judge: a good file of $size bytes cut at every byte, $wrong not refused" "$wrong"
{ cat "$work/good"; printf '\0'; } >"$work/more"
judged more 'refused 12'
expect 'judge: a byte too many' $?
{ cat "$work/good"; printf '\0\0'; } >"$work/more"
judged more 'refused 12'
expect 'judge: an address too many' $?

# of_set PROFILE BITS N WRONG: what a plan of this set gets: what `test` says where that is a refusal, else WRONG
of_set() {
    tested=$(./interleaver test "$1" "$2" "$3")
    if [ "$tested" = accepted ]; then echo "$4"; else echo "$tested"; fi
}

# each number of its header changed: the form is left where a set's number is, else the file is refused
at=0
for number in 2 3 1 48 44 2 5 1 40 48 3; do
    at=$((at + 1))
    for other in 0 1 2147483648 4294967295; do
        [ "$other" -ne "$number" ] || continue
        set -- 2 3 1 48 44 2 5 1 40 48 3
        changed=
        k=0
        for x in "$@"; do
            k=$((k + 1))
            [ "$k" -ne "$at" ] || x=$other
            changed="$changed $x"
        done
        # shellcheck disable=SC2086
        made changed $changed / 0 16 0 0 0
        # shellcheck disable=SC2086
        set -- $changed
        case $at in
            2 | 3 | 4) judged changed "plan 1 $(of_set "$2" "$3" "$4" 'wrong 1 47')
plan 2 wrong 0 40" ;;
            7 | 8 | 9) judged changed "plan 1 wrong 2 46
plan 2 $(of_set "$7" "$8" "$9" '')" ;;
            *) judged changed 'refused 12' ;;
        esac
        expect "judge: number $at of the header $other" $?
    done
done

# lists that overlap, leave a gap, or stand in another order; counts whose double passes 32 bits; no plan, and seventeen
for row in 'overlap:2 3 1 48 44 2 5 1 40 46 2 / 0 1 2' 'gap:2 3 1 48 44 2 5 1 40 50 1 / 0 1 2 3' 'exchanged:2 3 1 48 46 1 5 1 40 44 1 / 0 1' \
    'wrapped:1 3 1 48 24 2147483648' 'wrapped_by_two:2 3 1 48 44 2147483649 5 1 40 46 2147483648 / 0' 'offset_past_16_bits:1 3 1 48 65560 0' 'none:0' \
    'header_alone:1' ; do
    # shellcheck disable=SC2086
    made "${row%%:*}" ${row#*:}
    judged "${row%%:*}" 'refused 12'
    expect "judge: ${row%%:*}" $?
done
many=17
for k in $(seq 17); do many="$many 3 1 48 344 0"; done
# shellcheck disable=SC2086
made seventeen $many
judged seventeen 'refused 12'
expect 'judge: seventeen plans' $?
many=16
for k in $(seq 16); do many="$many 3 1 48 324 0"; done
# shellcheck disable=SC2086
made sixteen $many
[ "$(answers judge "$work/sixteen" | tail -n 1)" = 'plan 16 wrong 0 48' ]
expect 'judge: sixteen plans without a place' $?

# what `plans` writes, put together from the lists
sets='3 6 288 1 1 48 2 2 96 4 4 192 5 1 40 5 1 5114'
# shellcheck disable=SC2086
./interleaver plans $sets >"$work/ours"
# shellcheck disable=SC2086
set -- $sets
plans=$(($# / 3))
{
    while [ $# -gt 0 ]; do
        echo "set $1 $2 $3"
        ./interleaver list "$1" "$2" "$3"
        shift 3
    done
} | awk -v plans="$plans" '
    function put(v, wide,   j) { for (j = wide - 1; j >= 0; j--) printf "%02x", int(v / 256 ^ j) % 256 }
    $1 == "set" { p[++c] = $2; b[c] = $3; n[c] = $4; next }
    { a[++m] = $1; own[c]++ }
    END {
        put(plans, 4)
        at = 4 + 20 * plans
        for (k = 1; k <= c; k++) { put(p[k], 4); put(b[k], 4); put(n[k], 4); put(at, 4); put(own[k], 4); at += 2 * own[k] }
        for (k = 1; k <= m; k++) put(a[k], 2)
    }' >"$work/want"
od -An -v -tx1 "$work/ours" | tr -d ' \n' | cmp -s - "$work/want"
expect 'plans: six sets, as list has them' $?
[ "$(answers judge "$work/ours" | grep -c equal)" -eq "$plans" ]
expect 'judge: each of them equal' $?

# 65,536 bytes are taken, a byte more is not; 65,538 are not written
# shellcheck disable=SC2046
./interleaver plans $(for k in $(seq 15); do echo 5 1 2038; done) 5 1 2036 >"$work/full"
[ "$(wc -c <"$work/full")" -eq 65536 ] && [ "$(answers judge "$work/full" | grep -c equal)" -eq 16 ]
expect 'judge: 65,536 bytes' $?
{ cat "$work/full"; printf '\0'; } >"$work/fuller"
judged fuller 'refused 12'
expect 'judge: 65,537 bytes' $?

# unwritten WANT SET..: `plans` refuses, on standard error, and writes nothing
unwritten() {
    want=$1
    shift
    ./interleaver plans "$@" >"$work/got" 2>"$work/said"
    [ $? -eq 1 ] && [ ! -s "$work/got" ] && [ "$(cat "$work/said")" = "$want" ]
}
# shellcheck disable=SC2046
unwritten 'refused 12' $(for k in $(seq 15); do echo 5 1 2038; done) 5 1 2037
expect 'plans: 65,538 bytes' $?
# shellcheck disable=SC2046
unwritten 'refused 12' $(for k in $(seq 17); do echo 3 1 48; done)
expect 'plans: seventeen sets' $?
# shellcheck disable=SC2046
unwritten 'refused 3 192' $(for k in $(seq 14); do echo 5 1 5114; done) 3 4 100 3 9 1
expect 'plans: the first bad set, before the size' $?
unwritten 'refused 1' 3 1 48 6 1 52
expect 'plans: profile 6' $?
for words in '' '3 1' '3 1 48 3' '3 1 x' '3 1 -48' '3 1 48 stream=1'; do
    # shellcheck disable=SC2086
    unwritten 'interleaver: expected plans PROFILE BITS N ..., three numbers a set, each of 1 to 10 digits up to 4294967295' $words
    expect "plans $words" $?
done
for words in 'judge' 'judge a b' 'judge a=b' 'differ a' 'differ a b c'; do
    # shellcheck disable=SC2086
    ./interleaver $words >"$work/got" 2>"$work/said"
    [ $? -eq 1 ] && [ ! -s "$work/got" ] && case $words in
        judge*) [ "$(cat "$work/said")" = 'interleaver: expected judge FILE' ] ;;
        *) [ "$(cat "$work/said")" = 'interleaver: expected differ FILE FILE' ] ;;
    esac
    expect "$words" $?
done

# `lines` answers none of the three; a path is taken up to 1,024 bytes
printf 'judge samples/harbour.plan\ndiffer a b\nplans 3 1 48\n' | ./interleaver lines >"$work/got" 2>"$work/said"
[ ! -s "$work/got" ] && [ "$(grep -c '^interleaver: expected a question, as lines answers only those$' "$work/said")" -eq 3 ]
expect 'lines: plan files' $?
dots=$(printf './%.0s' $(seq 502))
[ "$(answers judge "${dots}samples/harbour.plan" | head -n 1)" = 'plan 1 equal' ]
expect 'judge: a path of 1,024 bytes' $?
[ "$(answers judge "./${dots}samples/harbour.plan")" = 'refused 12' ]
expect 'judge: a path of 1,026 bytes' $?
