# shellcheck shell=sh disable=SC2154
# Part of tests/run: lists of profile 5 held to 3GPP TS 25.212 4.2.3.2.3 as it is printed, matrix by matrix, in awk.

# L of a block of K
standard() {
    awk -v k="$1" '
    function prime(x, d) {
        for (d = 2; d * d <= x; d++) if (x % d == 0) return 0
        return 1
    }
    function common(x, y) { return y == 0 ? x : common(y, x % y) }
    function generates(v, p, x, e) {
        for (x = v; x != 1; x = x * v % p) e++
        return e == p - 2
    }
    BEGIN {
        own = k >= 481 && k <= 530
        r = k <= 159 ? 5 : k <= 200 || own ? 10 : 20
        for (p = 7; !own && (k > r * (p + 1) || !prime(p)); p++) ;
        if (own) p = 53
        c = own ? p : k <= r * (p - 1) ? p - 1 : k <= r * p ? p : p + 1
        for (v = 2; !generates(v, p); v++) ;
        s[0] = q[0] = 1
        for (j = 0; j < p - 2; j++) s[j + 1] = v * s[j] % p
        for (i = 1; i < r; i++)
            for (q[i] = q[i - 1] > 6 ? q[i - 1] + 1 : 7; !prime(q[i]) || common(q[i], p - 1) > 1; q[i]++) ;
        first = k >= 2281 && k <= 2480 || k >= 3161 && k <= 3210
        split(first ? "19 9 14 4 0 2 5 7 12 18 16 13 17 15 3 1 6 11 8 10" : "19 9 14 4 0 2 5 7 12 18 10 8 13 17 3 1 16 6 15 11", order)
        for (i = 0; i < r; i++) t[i] = r < 20 ? r - 1 - i : order[i + 1]
        for (i = 0; i < r; i++) number[t[i]] = q[i]
        for (i = 0; i < r; i++) {
            for (j = 0; j < p - 1; j++) u[i, j] = s[j * number[i] % (p - 1)] - (c == p - 1)
            if (c >= p) u[i, p - 1] = 0
            if (c == p + 1) u[i, p] = p
        }
        if (c == p + 1 && k == r * c) {
            kept = u[r - 1, p]
            u[r - 1, p] = u[r - 1, 0]
            u[r - 1, 0] = kept
        }
        for (j = 0; j < c; j++)
            for (i = 0; i < r; i++)
                if (t[i] * c + u[t[i], j] < k) print t[i] * c + u[t[i], j]
    }'
}

# full rectangles of 5, 10 and 20 rows; K 41 has padding, K 199 the rectangle of K 200, K 520 and 2300 a prime and an order of their own, and of K 4776
# the last q is 89, further than of any other p
for k in 40 41 199 200 520 2300 4776 5040 5114; do
    standard "$k" >"$work/want"
    ./interleaver list 5 1 "$k" | cmp -s - "$work/want"
    expect "list 5 1 $k by the standard" $?
done
