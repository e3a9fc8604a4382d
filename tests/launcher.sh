# shellcheck shell=sh disable=SC2154
# Part of tests/run: the launcher itself, and what it says while it builds, with a short stand-in for rt.

# from another folder, and by a link
ln -s "$top/interleaver" "$work/link"
(cd "$work" && [ "$(./link at 3 4 192 13)" = 1 ])
expect 'by a link from another folder' $?

# A repository of three crates and one beside them, and an rt that takes HOLD seconds for a crate and makes the program of the last, or fails where
# there is a file `wrong`. Its clock is at 1,000 s when it is first asked, and then at 1,072.
kit=$(dirname "$(dirname "$(readlink -f "$(command -v rt)")")")
mkdir -p "$work/small/bin" "$work/small/crates/low" "$work/small/crates/high" "$work/small/crates/interleaver"
cp interleaver "$work/small/"
cp crates/interleaver/out/interleaver "$work/small/program"
printf '# crates\nlow:\nhigh: low io\nother:\ninterleaver: high low io # the program\n' >"$work/small/crates.txt"
cat >"$work/small/bin/rt" <<'END'
#!/bin/sh
if [ -e ../../wrong ]; then seq 30; exit 1; fi
sleep "$HOLD"
[ "$1" = lib ] || { mkdir -p out && cp ../../program out/interleaver; }
END
cat >"$work/small/bin/date" <<'END'
#!/bin/sh
if [ -e "$CLOCK" ]; then echo 1072; else : >"$CLOCK"; echo 1000; fi
END
chmod +x "$work/small/bin/rt" "$work/small/bin/date"
small() { PATH=$work/small/bin:$PATH CLOCK=$work/clock HOLD=$hold RATTLE_HOME=${RATTLE_HOME:-$kit} "$@"; }

# off a terminal: one line
hold=0
small "$work/small/interleaver" at 3 4 192 13 >"$work/got" 2>"$work/said"
status=$?
[ "$status" -eq 0 ] && [ "$(cat "$work/got")" = 1 ] && said 'interleaver: proving and building the program'
expect 'a first use off a terminal' $?

# on one: each crate that is taken up, in a line that is cleared before the answer; and nothing of it at the second use
if command -v script >/dev/null; then
    rm -r "$work/small/target" "$work/small/crates/interleaver/out"
    hold=3
    small script -qec "$work/small/interleaver at 3 4 192 13" /dev/null </dev/null | tr '\r' '\n' >"$work/got"
    for part in '1 of 3: low' '2 of 3: high' '3 of 3: interleaver'; do
        grep -q "interleaver: proving crate $part (1 min 12 s)\$" "$work/got" || echo "$part"
    done >"$work/missing"
    [ ! -s "$work/missing" ] && [ "$(tr -d '\n' <"$work/got" | tail -c 4)" = "$(printf '\033[K1')" ]
    expect 'a first use on a terminal' $?
    [ "$(small script -qec "$work/small/interleaver at 3 4 192 13" /dev/null </dev/null | tr -d '\r')" = 1 ]
    expect 'a second use on a terminal' $?
fi

# a build that fails: the end of what rt said, and status 2
rm -r "$work/small/target" "$work/small/crates/interleaver/out"
: >"$work/small/wrong"
small "$work/small/interleaver" at 3 4 192 13 >"$work/got" 2>"$work/said"
[ $? -eq 2 ] && [ ! -s "$work/got" ] && [ "$(sed 1d "$work/said")" = "$(seq 11 30)" ]
expect 'a build that fails' $?
