// Profile 9: lists and walks beside the formula, blocks beside the standard's two steps, every four numbers of 24 couples beside all outputs tried, the
// sizes; and refusals 11 and 10 in every call.
use super::factors::{lists_are, walks_are};
use super::fitting::next_of;
use super::spatial::{all_say, said};
use super::*;

pub fn sets() -> impl Iterator<Item = Set> {
    let small = [(24, [5, 0, 0, 0]), (24, [23, 23, 23, 22]), (28, [2, 1, 2, 3]), (96, [7, 48, 24, 72])];
    let large = [(240, [13, 120, 60, 180]), (2400, [53, 66, 24, 2]), (2400, [2399, 2399, 2399, 2398])];
    small.into_iter().chain(large).map(|(n, numbers)| Set::wimax(n, numbers).unwrap())
}

fn untested(n: u32, factors: [u32; 4]) -> Set {
    Set { profile: 9, bits: 1, n, stream: 1, factors }
}

// L(j)
fn couple(set: Set, j: u32) -> u16 {
    let ([p0, p1, p2, p3], n, j) = (set.factors.map(u64::from), u64::from(set.n), u64::from(j));
    let q = [1, 1 + n / 2 + p1, 1 + p2, 1 + n / 2 + p3];
    ((p0 * j + q[j as usize % 4]) % n) as u16
}

fn list(set: Set) -> Vec<u16> {
    (0..set.n).map(|j| couple(set, j)).collect()
}

#[test]
fn lists_are_the_formula() {
    assert_eq!(Set::wimax(24, [5, 0, 0, 0]).unwrap().sources().unwrap()[..8], [1, 18, 11, 4, 21, 14, 7, 0]);
    lists_are(sets(), list);
}

#[test]
fn walks_in_slices() {
    walks_are(sets(), list);
}

// What a block of symbols of some bytes becomes. First step: odd-numbered couples swap A and B. Second: output couple j is couple P(j).
fn two_steps(set: Set, width: usize, src: &[u8]) -> Vec<u8> {
    let mut swapped = src.to_vec();
    for couple in swapped.chunks_mut(2 * width).skip(1).step_by(2) {
        couple.rotate_left(width);
    }
    (0..set.n).flat_map(|j| &swapped[2 * width * couple(set, j) as usize..][..2 * width]).copied().collect()
}

#[test]
fn blocks_go_by_the_two_steps() {
    for set in sets() {
        for width in 1..=8 {
            let size = width * set.symbols();
            let src: Vec<u8> = (0..size).map(|i| (i * 31 + i / 251) as u8).collect();
            let (want, mut sent, mut back) = (two_steps(set, width, &src), vec![0; size], vec![0; size]);
            set.interleave_symbols(width as u32, &src, &mut sent).unwrap();
            set.deinterleave_symbols(width as u32, &want, &mut back).unwrap();
            assert!(sent == want && back == src);
            if width == 1 {
                (sent, back) = (vec![0; size], vec![0; size]);
                set.interleave(&src, &mut sent).unwrap();
                set.deinterleave(&want, &mut back).unwrap();
                assert!(sent == want && back == src);
            }
        }
    }
}

#[test]
fn floats_go_by_the_two_steps() {
    for set in sets() {
        let n = set.symbols();
        let bits: Vec<u32> = (0..n as u32).map(|i| [0x8000_0000, 0x7fc0_0000 | i, 0xff80_0001 | i, i][i as usize % 4]).collect();
        let bytes: Vec<u8> = bits.iter().flat_map(|b| b.to_ne_bytes()).collect();
        let soft: Vec<f32> = bits.iter().map(|&b| f32::from_bits(b)).collect();
        let (mut sent, mut back) = (vec![0.0; n], vec![0.0; n]);
        set.interleave_soft(&soft, &mut sent).unwrap();
        set.deinterleave_soft(&sent, &mut back).unwrap();
        assert!(sent.iter().flat_map(|x| x.to_bits().to_ne_bytes()).eq(two_steps(set, 4, &bytes)));
        assert!(back.iter().map(|x| x.to_bits()).eq(bits));
    }
}

#[test]
fn a_block_has_two_symbols_a_couple() {
    for set in super::sets() {
        assert_eq!(set.symbols(), if set.profile == 9 { 2 * set.size() } else { set.size() });
    }
    for set in sets() {
        let (n, right) = (set.size(), set.symbols());
        let (src, soft, mut out, mut out_soft) = (vec![1; 3 * right + 3], vec![1.0; right + 1], vec![9; 3 * right + 3], vec![0.5; right + 1]);
        for off in [0, n, right - 1, right + 1] {
            let mut bytes = |a: usize, b: usize| {
                let soft = [set.interleave_soft(&soft[..a], &mut out_soft[..b]), set.deinterleave_soft(&soft[..a], &mut out_soft[..b])];
                let plain = [set.interleave(&src[..a], &mut out[..b]), set.deinterleave(&src[..a], &mut out[..b])];
                let wide = set.interleave_symbols(3, &src[..3 * a], &mut out[..3 * b]);
                [soft[0], soft[1], plain[0], plain[1], wide, set.deinterleave_symbols(3, &src[..3 * a], &mut out[..3 * b])]
            };
            assert_eq!((bytes(off, right), bytes(off, off)), ([Err(Refusal::Input); 6], [Err(Refusal::Input); 6]));
            assert_eq!(bytes(right, off), [Err(Refusal::Output); 6]);
        }
        assert!(out.iter().all(|&x| x == 9) && out_soft.iter().all(|&x| x == 0.5));
    }
}

// 11 where one isn't below 24; 10 where all outputs tried have fewer than 24 couples.
#[test]
fn every_four_numbers_of_24_couples() {
    let mut fit = 0;
    for i in 0..25u32.pow(4) {
        let numbers = [i % 25, i / 25 % 25, i / 625 % 25, i / 15_625];
        let set = untested(24, numbers);
        let couples = (0..24).fold(0u32, |seen, j| seen | 1 << couple(set, j));
        let apart = if couples == 0xff_ffff { Ok(()) } else { Err(Refusal::Shared) };
        assert_eq!(set.test(), if numbers.iter().all(|&p| p < 24) { apart } else { Err(Refusal::Factors) });
        fit += set.test().is_ok() as u32;
    }
    assert_eq!(fit, 10_368);
}

#[test]
fn every_size() {
    let sizes: Vec<u32> = (24..=2400).step_by(4).collect();
    for n in (0..=2500).chain([65_560, 2_147_483_672, u32::MAX]) {
        if sizes.contains(&n) {
            let set = Set::wimax(n, [n - 1, n / 2 + 2, 0, n / 2 + 2]).unwrap(); // 1, 2, 3, 0 modulo 4
            assert_eq!((set.sources(), set.symbols() as u32), (Ok(list(set)), 2 * n));
        } else {
            assert_eq!(Set::wimax(n, [5, 0, 0, 0]), Err(Refusal::Size { fits: next_of(&sizes, n) }));
        }
    }
    assert_eq!([20, 26, 2404].map(|n| next_of(&sizes, n)), [24, 28, 0]);
}

#[test]
fn the_numbers_are_tested_after_the_stream() {
    use Refusal::*;
    let large = [[24, 0, 0, 0], [5, 24, 0, 0], [5, 0, 24, 0], [5, 0, 0, 24], [u32::MAX, 0, 0, 0], [65_541, 0, 0, 0], [0, 1, 0, u32::MAX]];
    let shared = [[0, 0, 0, 0], [3, 0, 0, 0], [5, 1, 0, 0], [5, 0, 0, 1], [2, 1, 2, 3]].map(|numbers| (numbers, Shared));
    for (numbers, refusal) in large.map(|numbers| (numbers, Factors)).into_iter().chain(shared) {
        assert_eq!(Set::wimax(24, numbers), Err(refusal));
        let set = untested(24, numbers);
        let stream = set.with_stream(2);
        for (set, refusal) in
            [(set, refusal), (stream, Stream), (Set { n: 26, ..stream }, Size { fits: 28 }), (Set { bits: 2, n: 26, ..stream }, Bits)]
        {
            let all = all_say(set, refusal);
            for n in [24, 48] {
                assert_eq!((set.test(), said(set, n, false), said(set, n, true)), (Err(refusal), all, all));
            }
        }
        assert_eq!(Set { profile: 10, ..set }.test(), Err(Profile));
    }
    let sentences = [Set::wimax(24, [24, 0, 0, 0]), Set::wimax(24, [5, 1, 0, 0])].map(|refused| refused.unwrap_err().to_string());
    assert!(sentences[0].starts_with("refused with 11: ") && sentences[0].ends_with("one of P0 to P3 of profile 9 isn't below N"));
    assert!(sentences[1].starts_with("refused with 10: ") && sentences[1].ends_with("the numbers of profile 9"));
}

// Refused with 1 before any other fault, whatever the lengths.
#[test]
fn receptions_are_refused() {
    for set in sets() {
        for n in [set.size(), set.symbols(), 7] {
            let (mut sums, mut counts) = (vec![0.25; n], vec![3; n]);
            assert_eq!(set.add_received(&vec![1.0; n], &vec![1; n], &mut sums, &mut counts), Err(Refusal::Profile));
            assert_eq!(set.add_received(&vec![f32::NAN; n], &vec![2; n], &mut sums, &mut counts[1..]), Err(Refusal::Profile));
            assert_eq!([0, u32::MAX].map(|position| set.read_sum(&sums, &counts, position)), [Err(Refusal::Profile); 2]);
            assert_eq!((sums, counts), (vec![0.25; n], vec![3; n]));
        }
    }
}
