# shellcheck shell=sh disable=SC2154
# Part of tests/run: bursts in the channel. What `dvb burst` and `atsc burst` say is held to what the filter does with a burst of bytes that can be
# told apart, in a channel that is else zero.

# a channel of 12,000 bytes: AT zeros, then the bytes 1, 2, .. up to LENGTH, then zeros
channel() {
    head -c "$1" /dev/zero
    for byte in $(seq "$2"); do printf "\\$(printf %o "$byte")"; done
    head -c $((12000 - $1 - $2)) /dev/zero
}

# where they come out, and the least distance: of one and the next, in the order of their places
found() {
    bytes | awk -v at="$1" '$1 > 0 { place[$1] = NR - 1; if (seen++ && (!least || NR - last < least)) least = NR - last; last = NR }
        END { for (b = 1; b <= seen; b++) print at + b - 1, place[b]; print "least distance " (least ? least : "none") }'
}

# by_filter KIND BURST ..: each burst
by_filter() {
    kind=$1
    shift
    for burst in "$@"; do
        # shellcheck disable=SC2086
        channel $burst | ./interleaver "$kind" deinterleave 0 | found ${burst% *} >"$work/want"
        # shellcheck disable=SC2086
        ./interleaver "$kind" burst $burst | cmp -s - "$work/want"
        expect "$kind burst $burst by the filter" $?
    done
}
by_filter dvb '0 1' '0 2' '0 12' '5 12' '11 2' '11 12' '12 12' '23 13' '100 12' '7 193' '7 194' '3 205' '0 206' '6 255'
by_filter atsc '0 1' '0 2' '0 52' '5 52' '51 2' '51 52' '52 52' '103 53' '100 52' '7 157' '7 158' '3 209' '0 210' '6 255'

# across AT PER: of `BYTE PLACE` the two and the place again, the first two counted from AT and in units of PER bytes
across() {
    sed '$d' | awk -v at="$1" -v per="$2" '{ form = per == 1 ? "%d" : "%.1f"; print sprintf(form, ($1 - at) / per), sprintf(form, ($2 - at) / per), $2 }'
}

# pictured KIND PER TITLE LEAST: the picture has a stroke for each byte, from the channel to its place, both counted from the burst's first byte
pictured() {
    ./interleaver "$1" burst 5 200 | across 5 "$2" | awk '{ print "M" $1 " 0v100L" $2 " 350v100" }' >"$work/want"
    ./interleaver picture "$1" burst 5 200 >"$work/got"
    sed -n '/<path/s/.* d="\(.*\)".*/\1/p' "$work/got" | sed 's/M/\nM/g' | sed 1d | cmp -s - "$work/want" && [ "$(wc -l <"$work/want")" -eq 200 ]
    expect "the strokes of picture $1 burst 5 200" $?
    grep -q "<title>$3: a burst" "$work/got" && grep -q 'channel: bytes 5 to 204<' "$work/got" && grep -q "least distance $4<" "$work/got"
    expect "the words of picture $1 burst 5 200" $?
}
pictured dvb 1 DVB 11
pictured atsc 5 ATSC 51

# numbered KIND PER BRANCHES BEFORE BEHIND: a burst with no more bytes than branches has its places below the strokes, and a longer one has none; where
# no numbers are given, the picture is that of a byte in each branch
numbered() {
    ./interleaver picture "$1" burst 0 "$3" >"$work/got"
    ./interleaver "$1" burst 0 "$3" | across 0 "$2" | awk -v before="$4" -v behind="$5" '{ print "<text " before $2 behind ">" $3 "</text>" }' >"$work/want"
    grep 'font-size="36"' "$work/got" | sed 's/<text/\n<text/g; s/<\/g>//' | sed 1d | cmp -s - "$work/want" && [ "$(wc -l <"$work/want")" -eq "$3" ]
    expect "the places in picture $1 burst 0 $3" $?
    ./interleaver picture "$1" burst | cmp -s - "$work/got"
    expect "picture $1 burst alone is that of 0 $3" $?
    ./interleaver picture "$1" burst 0 $(($3 + 1)) >"$work/got"
    grep -q '<path' "$work/got" && ! grep -q 'font-size="36"' "$work/got"
    expect "no places in picture $1 burst 0 $(($3 + 1))" $?
}
numbered dvb 1 12 'x="' '" y="490"'
numbered atsc 5 52 'transform="translate(' ' 465)rotate(90)" y="13"'
