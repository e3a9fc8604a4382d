// The padding report beside R, p and C worked out as 3GPP TS 25.212 4.2.3.2.3.1 has them, for every K and for ranges; and what is refused.
use super::wcdma::{figures, totals, Figures, Totals};
use super::*;

const SIZES: std::ops::RangeInclusive<u32> = 40..=5114;

fn prime(x: u32) -> bool {
    (2..x).take_while(|d| d * d <= x).all(|d| x % d != 0)
}

// A line of the report. For K 481 to 530 p is 53, and C too; for every other p is the least prime with K in R rows of p + 1, and C is p - 1, p or p + 1.
fn line(k: u32) -> Figures {
    let r = match k {
        40..=159 => 5,
        160..=200 | 481..=530 => 10,
        _ => 20,
    };
    let c = match k {
        481..=530 => 53,
        _ => {
            let p = (7..).find(|&p| prime(p) && k <= r * (p + 1)).unwrap();
            (p - 1..=p + 1).find(|c| k <= r * c).unwrap()
        }
    };
    Figures { k, r, c, cells: r * c, pads: r * c - k }
}

#[test]
fn figures_of_every_size() {
    for k in SIZES {
        assert_eq!(figures(k), Ok(line(k)));
    }
    let known = [(40, 5, 8, 40, 0), (41, 5, 10, 50, 9), (480, 20, 24, 480, 0), (481, 10, 53, 530, 49), (530, 10, 53, 530, 0), (531, 20, 28, 560, 29)];
    for (k, r, c, cells, pads) in known.into_iter().chain([(2281, 20, 126, 2520, 239), (5114, 20, 256, 5120, 6)]) {
        assert_eq!(figures(k), Ok(Figures { k, r, c, cells, pads }));
    }
}

// The size that fits goes with the refusal.
#[test]
fn figures_of_no_size() {
    for (k, fits) in [(0, 40), (39, 40), (5115, 0), (u32::MAX, 0)] {
        assert_eq!((figures(k), Set::new(5, 1, k)), (Err(Refusal::Size { fits }), Err(Refusal::Size { fits })));
    }
}

#[test]
fn totals_of_ranges() {
    for first in SIZES {
        let mut sum = Totals { sizes: 0, cells: 0, pads: 0 };
        for last in first..=first + 3 {
            if SIZES.contains(&last) {
                let Figures { cells, pads, .. } = line(last);
                sum = Totals { sizes: sum.sizes + 1, cells: sum.cells + cells, pads: sum.pads + pads };
                assert_eq!(totals(first, last), Ok(sum));
            } else {
                assert_eq!(totals(first, last), Err(Refusal::Range));
            }
        }
    }
    let known = [(40, 40, 1, 40, 0), (40, 41, 2, 90, 9), (5114, 5114, 1, 5120, 6), (40, 5114, 5075, 13_265_345, 187_070)];
    for (first, last, sizes, cells, pads) in known {
        assert_eq!(totals(first, last), Ok(Totals { sizes, cells, pads }));
    }
}

#[test]
fn totals_of_no_range() {
    for (first, last) in [(41, 40), (39, 40), (40, 5115), (5115, 39), (u32::MAX, u32::MAX)] {
        let refusal = totals(first, last).unwrap_err();
        assert_eq!((refusal, refusal.number()), (Refusal::Range, 3));
    }
    let said = "refused with 3: the first or the last K of a range isn't 40 to 5,114, or the first is above the last";
    assert_eq!(Refusal::Range.to_string(), said);
}
