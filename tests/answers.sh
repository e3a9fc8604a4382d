# shellcheck shell=sh disable=SC2154
# Part of tests/run: answers that are longer than the 4,096 bytes in which text is gathered, each held to what says the same in another way.

# M of a carrier profile by the two steps of the standard: N, bits, d
formula() {
    awk -v n="$1" -v bits="$2" -v d="$3" 'BEGIN {
        s = bits > 1 ? bits / 2 : 1
        for (k = 0; k < n; k++) {
            m = n / d * (k % d) + int(k / d)
            print s * int(m / s) + (m + n - int(d * m / n)) % s
        }
    }'
}

formula 1152 6 12 >"$work/m"
awk '{ l[$1] = NR - 1 } END { for (t = 0; t < NR; t++) print l[t] }' "$work/m" >"$work/l"
./interleaver back 1 6 1152 | cmp -s - "$work/m"
expect 'back 1 6 1152 by the formula' $?
./interleaver list 1 6 1152 | cmp -s - "$work/l"
expect 'list 1 6 1152 by the formula' $?

# thousands of questions in one run
./interleaver list 5 1 5114 >"$work/turbo"
seq 0 5113 | sed 's/^/at 5 1 5114 /' | ./interleaver lines | cmp -s - "$work/turbo"
expect 'list 5 1 5114, and each of its addresses alone' $?

# one walk with room for more than there is; and one in pieces, each from the cell at which the one before ended
{ cat "$work/l"; echo 'written 1152 next 1152 cells 1152'; } >"$work/want"
./interleaver walk 1 6 1152 0 5000 | cmp -s - "$work/want"
expect 'a walk with room of 5,000' $?
cell=0
for _ in 1 2 3; do
    ./interleaver walk 5 1 5114 "$cell" 2000 >"$work/piece"
    sed '$d' "$work/piece"
    cell=$(tail -n 1 "$work/piece" | cut -d' ' -f4)
done >"$work/got"
cmp -s "$work/got" "$work/turbo"
expect 'a walk in pieces of 2,000' $?

# a dot for each symbol, at its input index and its output index
./interleaver picture 1 6 1152 | sed -n '/stroke-linecap/s/.* d="\(.*\)".*/\1/p' | sed 's/M/\nM/g' | sed 1d >"$work/got"
awk '{ print "M" $1 " " NR - 1 "h0" }' "$work/l" >"$work/want"
cmp -s "$work/got" "$work/want"
expect 'the dots of picture 1 6 1152' $?

# the pictures of the README are what the program draws
./interleaver picture 3 6 288 | cmp -s - docs/pictures/wlan.svg && ./interleaver picture 6 6 312 stream=2 | cmp -s - docs/pictures/stream.svg &&
    ./interleaver picture 5 1 320 | cmp -s - docs/pictures/turbo.svg && ./interleaver picture 8 1 320 | cmp -s - docs/pictures/lte.svg &&
    ./interleaver picture 9 1 240 p0=13 p1=120 p2=60 p3=180 | cmp -s - docs/pictures/couples.svg && ./interleaver picture dvb burst | cmp -s - docs/pictures/burst.svg &&
    ./interleaver picture atsc burst | cmp -s - docs/pictures/burst_atsc.svg
expect 'the pictures in docs are the program'"'"'s' $?

# no word at all asks for help
./interleaver help >"$work/want" && ./interleaver | cmp -s - "$work/want"
expect 'no word at all' $?

# what cannot be written or read is said in one line
./interleaver list 5 1 5114 >/dev/full 2>"$work/said"
[ $? -eq 1 ] && said 'interleaver: writing: '
expect 'a full disk is told once' $?
./interleaver lines <"$work" >/dev/null 2>"$work/said"
[ $? -eq 1 ] && said 'interleaver: reading: '
expect 'questions from a folder' $?
