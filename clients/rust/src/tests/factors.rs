// Profile 8: lists, walks and blocks beside the formula, the standard's own factors, all positions tried for a small K; and refusals 11 and 10 in
// every call.
use super::spatial::{all_say, said};
use super::*;

pub fn sets() -> impl Iterator<Item = Set> {
    let listed = [(40, 3, 10), (40, 39, 30), (512, 31, 64), (528, 17, 66), (6144, 263, 480), (6144, 6143, 6138)];
    listed.into_iter().map(|(k, f1, f2)| Set::lte(k, f1, f2).unwrap())
}

// L(t)
fn formula(set: Set, t: u32) -> u16 {
    let [k, f1, f2, t] = [set.n, set.factors[0], set.factors[1], t].map(u64::from);
    ((f1 * t + f2 * t * t) % k) as u16
}

fn list(set: Set) -> Vec<u16> {
    (0..set.n).map(|t| formula(set, t)).collect()
}

#[test]
fn lists_are_the_formula() {
    assert_eq!(Set::lte(40, 3, 10).unwrap().sources().unwrap()[..5], [0, 13, 6, 19, 12]);
    lists_are(sets(), list);
}

// That the lists of some sets of profile 8 or 9, and every single address, are as given.
pub fn lists_are(sets: impl Iterator<Item = Set>, list: fn(Set) -> Vec<u16>) {
    for set in sets {
        assert_eq!((set.sources(), set.targets()), (Ok(list(set)), Err(Refusal::Profile)));
        for (t, l) in (0..).zip(list(set)) {
            assert_eq!((set.source(t), set.target(l as u32)), (Ok(l as u32), Ok(t)));
        }
        for past in [set.n, set.n + 1, u32::MAX] {
            assert_eq!((set.source(past), set.target(past)), (Err(Refusal::Position), Err(Refusal::Position)));
        }
    }
}

#[test]
fn walks_in_slices() {
    walks_are(sets(), list);
}

// The same of their walks: from every cell of a small list and some of a large one, with refused walks between.
pub fn walks_are(sets: impl Iterator<Item = Set>, list: fn(Set) -> Vec<u16>) {
    for set in sets {
        let (list, far) = (list(set), if set.n < 100 { 1 } else { set.size() / 7 });
        for (from, room) in (0..=set.size()).step_by(far).flat_map(|from| [1, 7, 13].map(|room| (from, room))) {
            let (mut walk, mut joined, mut out) = (Walk::sources(set), Vec::<u16>::new(), [0xeeee; 13]);
            walk.cell = from as u32;
            loop {
                let (mut shared, mut back, mut past) = (walk, Walk::targets(set), walk);
                // profile 8 has no even f1, and profile 9 no P0 of 0
                (shared.set.factors[0], back.cell, past.cell) = (if set.profile == 8 { 2 } else { 0 }, walk.cell, set.n + 1);
                let kept = [shared, back, past];
                let all = [shared.fill(&mut out[..room]), back.fill(&mut out[..room]), past.fill(&mut out[..room])];
                assert_eq!(all, [Refusal::Shared, Refusal::Profile, Refusal::Record].map(Err));
                assert_eq!(([shared, back, past], out), (kept, [0xeeee; 13]));
                let Walked { written, cells } = walk.fill(&mut out[..room]).unwrap();
                joined.extend(&out[..written]);
                assert_eq!((written as u32, walk.cell as usize), (cells, from + joined.len()));
                assert!(out[written..].iter().all(|&a| a == 0xeeee));
                out = [0xeeee; 13];
                if written < room {
                    break;
                }
            }
            assert_eq!(joined, list[from..]);
        }
    }
}

#[test]
fn blocks_go_by_the_formula() {
    for set in sets() {
        let (n, list) = (set.size(), list(set));
        let src: Vec<u8> = (0..3 * n).map(|i| (i * 31 + i / 251) as u8).collect();
        let bits: Vec<u32> = (0..n as u32).map(|i| [0x8000_0000, 0x7fc0_0000 | i, 0xff80_0001 | i, i][i as usize % 4]).collect();
        let soft: Vec<f32> = bits.iter().map(|&b| f32::from_bits(b)).collect();
        let (mut sent, mut sent_soft, mut wide) = (vec![0; n], vec![0.0; n], vec![0; 3 * n]);
        set.interleave(&src[..n], &mut sent).unwrap();
        set.interleave_soft(&soft, &mut sent_soft).unwrap();
        set.interleave_symbols(3, &src, &mut wide).unwrap();
        for (t, l) in list.into_iter().map(usize::from).enumerate() {
            assert_eq!((sent[t], sent_soft[t].to_bits(), &wide[3 * t..][..3]), (src[l], bits[l], &src[3 * l..][..3]));
        }
        let (mut back, mut back_soft, mut back_wide) = (vec![0; n], vec![0.0; n], vec![0; 3 * n]);
        set.deinterleave(&sent, &mut back).unwrap();
        set.deinterleave_soft(&sent_soft, &mut back_soft).unwrap();
        set.deinterleave_symbols(3, &wide, &mut back_wide).unwrap();
        assert_eq!((back[..] == src[..n], back_wide == src), (true, true));
        assert!(back_soft.iter().map(|x| x.to_bits()).eq(bits));
    }
}

#[test]
fn the_standards_own() {
    let tiers = [(40, 512, 8), (528, 1024, 16), (1056, 2048, 32), (2112, 6144, 64)];
    let sizes: Vec<u32> = tiers.into_iter().flat_map(|(first, last, step)| (first..=last).step_by(step)).collect();
    assert_eq!(sizes.len(), 188);
    let weigh = |sum: u32, f: u32| sum.wrapping_mul(31).wrapping_add(f);
    let weight = sizes.iter().map(|&k| lte::factors(k).unwrap()).fold(0, |sum, (f1, f2)| weigh(weigh(sum, f1), f2));
    assert_eq!(weight, 1_642_966_102); // as the table of the standard gives it, row by row
    for k in (0..=6200).chain([6208, 65_576, 2_147_483_688, u32::MAX]) {
        match lte::factors(k) {
            Ok((f1, f2)) => {
                let set = Set::lte(k, f1, f2).unwrap();
                assert_eq!((sizes.contains(&k), set.sources()), (true, Ok(list(set))));
            }
            refused => {
                let fits = super::fitting::next_of(&sizes, k);
                assert!(!sizes.contains(&k));
                assert_eq!((refused, Set::lte(k, 3, 10)), (Err(Refusal::Size { fits }), Err(Refusal::Size { fits })));
            }
        }
    }
    let rows = [(40, (3, 10)), (48, (7, 12)), (504, (55, 84)), (512, (31, 64)), (528, (17, 66)), (1024, (31, 64)), (1056, (17, 66))];
    let more = [(2016, (113, 420)), (2048, (31, 64)), (2112, (17, 66)), (6080, (47, 190)), (6144, (263, 480))];
    for (k, given) in rows.into_iter().chain(more) {
        assert_eq!(lte::factors(k), Ok(given));
    }
}

// 11 where f1 or f2 is 0 or not below K; 10 where all positions tried have fewer than K addresses.
#[test]
fn every_pair_of_a_small_size() {
    for (k, pairs) in [(40, 48), (48, 112), (56, 72), (64, 992), (72, 264)] {
        let mut fit = 0;
        for (f1, f2) in (0..=k).flat_map(|f1| (0..=k).map(move |f2| (f1, f2))) {
            let set = Set { profile: 8, bits: 1, n: k, stream: 1, factors: [f1, f2, 0, 0] };
            let addresses: std::collections::BTreeSet<u16> = list(set).into_iter().collect();
            let in_range = (1..k).contains(&f1) && (1..k).contains(&f2);
            let apart = if addresses.len() == k as usize { Ok(()) } else { Err(Refusal::Shared) };
            assert_eq!(set.test(), if in_range { apart } else { Err(Refusal::Factors) });
            fit += set.test().is_ok() as u32;
        }
        assert_eq!(fit, pairs);
    }
}

#[test]
fn factors_are_tested_after_the_stream() {
    use Refusal::*;
    let set = Set::lte(40, 3, 10).unwrap();
    let off = [(0, 10), (3, 0), (40, 10), (3, 40), (2, u32::MAX), (u32::MAX, 8), (65_539, 10), (0, 8)].map(|(f1, f2)| (f1, f2, Factors));
    for (f1, f2, refusal) in off.into_iter().chain([(3, 8, Shared), (5, 10, Shared), (2, 10, Shared)]) {
        assert_eq!(Set::lte(40, f1, f2), Err(refusal));
        let set = Set { factors: [f1, f2, 0, 0], ..set };
        let stream = set.with_stream(2);
        for (set, refusal) in
            [(set, refusal), (stream, Stream), (Set { n: 41, ..stream }, Size { fits: 48 }), (Set { bits: 2, n: 41, ..stream }, Bits)]
        {
            let all = all_say(set, refusal);
            assert_eq!((set.test(), said(set, 40, false), said(set, 40, true)), (Err(refusal), all, all));
        }
        assert_eq!(Set { profile: 10, ..set }.test(), Err(Profile));
    }
    let said = "refused with 11: f1 or f2 of profile 8 is 0, or not below N, or one of P0 to P3 of profile 9 isn't below N";
    assert_eq!(Set::lte(40, 3, 40).unwrap_err().to_string(), said);
}

// The last two of profile 8, and all of every profile but 8 and 9.
#[test]
fn factors_that_are_not_read() {
    for set in super::sets() {
        let mut other = set;
        other.factors[[0, 2, 4][set.profile.clamp(7, 9) as usize - 7]..].fill(u32::MAX);
        assert_eq!((other.test(), other.sources(), other.targets()), (Ok(()), set.sources(), set.targets()));
        assert_eq!((other.source(1), other.target(1)), (set.source(1), set.target(1)));
    }
}
