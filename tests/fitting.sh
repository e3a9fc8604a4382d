# shellcheck shell=sh disable=SC2154
# Part of tests/run: the size behind `refused 3`, held to the sizes as the standards and document 01 list them, and in every command that can be refused so.

# fits TOP PROFILE BITS: what `test` says of each N from 0 to TOP. The sizes are written out, then each N is given the first that is not below it
fits() {
    awk -v top="$1" -v p="$2" -v b="$3" 'BEGIN {
        s = b > 1 ? b / 2 : 1
        if (p == 1) for (n = 12 * b; n <= 192 * b; n *= 2) size[++c] = n
        if (p == 2 && b > 1) for (n = 48 * b; n <= 576; n += 48 * b) size[++c] = n
        if (p == 3) size[++c] = 48 * b
        if (p == 4) for (n = 16 * s; n <= 1536; n += 16 * s) size[++c] = n
        if (p == 5 && b == 1) for (n = 40; n <= 5114; n++) size[++c] = n
        if (p == 6) size[++c] = 52 * b
        if (p == 7) size[++c] = 108 * b
        if (p == 8 && b == 1) for (n = 40; n <= 6144; n += n < 512 ? 8 : n < 1024 ? 16 : n < 2048 ? 32 : 64) size[++c] = n
        if (p == 9 && b == 1) for (n = 24; n <= 2400; n += 4) size[++c] = n
        i = 1
        for (n = 0; n <= top; n++) {
            while (i <= c && size[i] < n) i++
            print(c == 0 ? "refused 2" : i > c ? "refused 3 0" : size[i] == n ? "accepted" : "refused 3 " size[i])
        }
    }'
}

for list in '1600 1 1' '1600 1 2' '1600 1 4' '1600 1 6' '100 2 1' '700 2 2' '700 2 4' '700 2 6' '100 3 1' '200 3 2' '300 3 4' '400 3 6' \
    '1600 4 1' '1600 4 2' '1600 4 4' '1600 4 6' '5200 5 1' '100 5 2' '100 6 1' '200 6 2' '300 6 4' '400 6 6' '200 7 1' '300 7 2' '500 7 4' '700 7 6' \
    '6200 8 1' '100 8 4' '2500 9 1' '100 9 2'; do
    # shellcheck disable=SC2086
    set -- $list
    fits "$@" >"$work/want"
    # profile 9 needs its four numbers, and these pass with every size of it
    words=
    [ "$2" -ne 9 ] || words='p0=1 p1=0 p2=0 p3=0'
    seq 0 "$1" | sed "s/.*/test $2 $3 & $words/" | ./interleaver lines | cmp -s - "$work/want"
    expect "the sizes that would have fitted, profile $2, bits $3" $?
done

# every command that a set is given to, and the one for LTE's factors
for asked in 'test 3 4 100' 'list 3 4 100' 'back 3 4 100' 'at 3 4 100 0' 'to 3 4 100 500' 'walk 3 4 100 900 5' 'picture 3 4 100' \
    'combine 3 4 100 samples/reception1.f32' 'test 3 4 100 stream=9'; do
    # shellcheck disable=SC2086
    [ "$(./interleaver $asked)" = 'refused 3 192' ]
    expect "$asked" $?
done
for asked in 'interleave 3 4 100' 'deinterleave 3 4 100 3'; do
    # shellcheck disable=SC2086
    ./interleaver $asked <samples/bulletin.txt >"$work/got" 2>"$work/said"
    [ $? -eq 1 ] && [ ! -s "$work/got" ] && [ "$(cat "$work/said")" = 'refused 3 192' ]
    expect "$asked" $?
done
[ "$(./interleaver factors 6100)" = 'refused 3 6144' ] && [ "$(./interleaver factors 6145)" = 'refused 3 0' ]
expect 'factors of a K that is not listed' $?

# a number other than 3 stands alone, also where N is not listed
[ "$(printf '%s\n' 'test 10 4 100' 'test 3 3 100' 'back 5 1 39' 'at 3 4 192 192' 'test 3 4 192 stream=2' 'test 8 1 40 f1=3 f2=8' | ./interleaver lines)" = \
    "$(printf 'refused %s\n' 1 2 1 4 16 10)" ]
expect 'other refusals are a number alone' $?
