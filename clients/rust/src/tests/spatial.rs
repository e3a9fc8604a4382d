// Profiles 6 and 7, every set: lists, walks and blocks beside the formula, which is worked out by division; and refusal 16 in every call.
use super::*;

pub fn sets() -> impl Iterator<Item = Set> {
    let sizes = [1, 2, 4, 6].into_iter().flat_map(|bits| [(6, bits, 52 * bits), (7, bits, 108 * bits)]);
    sizes.flat_map(|(profile, bits, n)| (1..=4).map(move |stream| Set::new(profile, bits, n).unwrap().with_stream(stream)))
}

fn turn(set: Set) -> u32 {
    let i = set.stream - 1;
    (2 * i % 3 + 3 * (i / 3)) * if set.profile == 6 { 11 } else { 29 } * set.bits
}

// M(k)
fn formula(set: Set, k: u32) -> u32 {
    let (n, d, s) = (set.n, if set.profile == 6 { 13 } else { 18 }, (set.bits / 2).max(1));
    let i = n / d * (k % d) + k / d;
    let j = s * (i / s) + (i + n - d * i / n) % s;
    (j + n - turn(set)) % n
}

#[test]
fn lists_are_the_formula() {
    assert_eq!(sets().count(), 32);
    for set in sets() {
        let m: Vec<u16> = (0..set.n).map(|k| formula(set, k) as u16).collect();
        let mut l = vec![0; set.size()];
        (0..).zip(&m).for_each(|(k, &place)| l[place as usize] = k);
        assert_eq!((set.test(), set.targets(), set.sources()), (Ok(()), Ok(m.clone()), Ok(l.clone())));
        for t in 0..set.n {
            assert_eq!((set.target(t), set.source(t)), (Ok(m[t as usize] as u32), Ok(l[t as usize] as u32)));
        }
    }
    let set = Set::new(6, 1, 52).unwrap();
    assert_eq!([1, 2, 3, 4].map(|stream| set.with_stream(stream).target(0)), [0, 30, 41, 19].map(Ok));
    let set = Set::new(7, 6, 648).unwrap();
    assert_eq!([1, 2, 3, 4].map(|stream| set.with_stream(stream).target(1)), [38, 338, 512, 164].map(Ok));
}

// At every place in two, and in three around the seam, the place t where t and the turn make N.
#[test]
fn walks_cut_at_the_seam() {
    for set in sets() {
        let seam = set.n - turn(set);
        for (list, begin) in [(set.sources().unwrap(), Walk::sources as fn(Set) -> Walk), (set.targets().unwrap(), Walk::targets)] {
            let goes = |from: u32, to: u32| {
                let (mut walk, mut out, end) = (begin(set), vec![0xeeee; (to - from) as usize], to.min(set.n));
                walk.cell = from;
                let cells = end - from;
                assert_eq!((walk.fill(&mut out), walk.cell), (Ok(Walked { written: cells as usize, cells }), end));
                assert_eq!(out[..cells as usize], list[from as usize..end as usize]);
                assert!(out[cells as usize..].iter().all(|&a| a == 0xeeee));
            };
            (0..=set.n).for_each(|at| [(0, at), (at, set.n), (at, set.n + 7)].into_iter().for_each(|(from, to)| goes(from, to)));
            (seam - 7..=set.n.min(seam + 7)).for_each(|from| (from..=seam + 7).for_each(|to| goes(from, to)));
        }
    }
}

#[test]
fn blocks_go_by_the_formula() {
    for set in sets() {
        let n = set.size();
        let src: Vec<u8> = (0..n).map(|i| (i * 31 + i / 251) as u8).collect();
        let soft: Vec<f32> = (0..n).map(|i| i as f32 / 8.0).collect();
        let (mut sent, mut sent_soft, mut back, mut back_soft) = (vec![0; n], vec![0.0; n], vec![0; n], vec![0.0; n]);
        set.interleave(&src, &mut sent).unwrap();
        set.interleave_soft(&soft, &mut sent_soft).unwrap();
        for k in 0..n {
            let place = formula(set, k as u32) as usize;
            assert_eq!((sent[place], sent_soft[place]), (src[k], soft[k]));
        }
        set.deinterleave(&sent, &mut back).unwrap();
        set.deinterleave_soft(&sent_soft, &mut back_soft).unwrap();
        assert_eq!((back, back_soft), (src, soft));
    }
}

pub const CALLS: usize = 17;

// What every call on a set says, buffers being n long; each has a fault of its own if there are to be faults. Nothing lent is changed.
pub fn said(set: Set, n: usize, faults: bool) -> [Result<(), Refusal>; CALLS] {
    let (less, place, count, high) = if faults { (n - 1, u32::MAX, u16::MAX, 2) } else { (n, 0, 1, 1) };
    let (bytes, fine, soft) = (vec![1; 2 * n], vec![1.0; n], vec![if faults { f32::NAN } else { 1.0 }; n]);
    let (mut out, mut out_soft, mut list) = (vec![9; 2 * n], vec![0.5; n], [7; 3]);
    let (mut sums, mut counts) = (vec![0.25; n], vec![count; n]);
    let (mut walk, mut back) = (Walk::sources(set), Walk::targets(set));
    (walk.cell, back.cell) = (place, place);
    let kept = (walk, back);
    let all = [
        set.source(place).map(drop),
        set.target(place).map(drop),
        walk.fill(&mut list).map(drop),
        back.fill(&mut list).map(drop),
        set.interleave(&bytes[..less], &mut out[..n]),
        set.deinterleave(&bytes[..n], &mut out[..less]),
        set.interleave_soft(&soft, &mut out_soft[..less]),
        set.deinterleave_soft(&soft[..less], &mut out_soft),
        set.interleave_symbols(2, &bytes[..2 * less], &mut out),
        set.deinterleave_symbols(2, &bytes, &mut out[..2 * less]),
        set.add_received(&fine, &bytes[..n], &mut sums, &mut counts),
        set.add_received(&soft, &bytes[..n], &mut sums, &mut counts),
        set.add_received(&soft, &vec![high; n], &mut sums, &mut counts),
        set.add_received(&soft, &vec![high; n], &mut sums, &mut counts[..less]),
        set.add_received(&soft[..less], &vec![high; n], &mut sums, &mut counts[..less]),
        set.read_sum(&sums, &counts[..less], 0).map(drop),
        set.read_sum(&sums, &counts[..less], place).map(drop),
    ];
    assert_eq!((walk, back, list), (kept.0, kept.1, [7; 3]));
    assert_eq!((out, out_soft, sums, counts), (vec![9; 2 * n], vec![0.5; n], vec![0.25; n], vec![count; n]));
    all
}

// What every call says of a refused set: its refusal, but for the walk for M of profiles 5, 8 and 9 and the receptions of profile 9.
pub fn all_say(set: Set, refusal: Refusal) -> [Result<(), Refusal>; CALLS] {
    let mut all = [Err(refusal); CALLS];
    if matches!(set.profile, 5 | 8 | 9) {
        all[3] = Err(Refusal::Profile);
    }
    if set.profile == 9 {
        all[10..].fill(Err(Refusal::Profile));
    }
    all
}

// The least listed size of a set's profile and bits.
fn least(set: Set) -> u32 {
    match set.profile {
        1 => 12 * set.bits,
        2 | 3 => 48 * set.bits,
        4 => 16 * (set.bits / 2).max(1),
        6 => 52 * set.bits,
        7 => 108 * set.bits,
        9 => 24,
        _ => 40,
    }
}

#[test]
fn a_stream_is_tested_after_the_size() {
    use Refusal::*;
    let listed = [(1, 6, 72), (2, 2, 96), (3, 4, 192), (4, 4, 64), (5, 1, 40), (6, 1, 52), (7, 6, 648)].map(|(p, b, n)| Set::new(p, b, n).unwrap());
    for set in listed.into_iter().chain(Set::lte(40, 3, 10)).chain(Set::wimax(24, [5, 0, 0, 0])) {
        let n = set.symbols();
        let walks = [Position, Position, Record, if matches!(set.profile, 5 | 8 | 9) { Profile } else { Record }];
        let blocks = [Input, Output, Output, Input, Input, Output];
        let sums = if set.profile == 9 { [Profile; 7] } else { [Count, Finite, Presence, Output, Input, Output, Position] };
        let own = [&walks[..], &blocks[..], &sums[..]].concat();
        assert_eq!(said(set, n, true).to_vec(), own.into_iter().map(Err).collect::<Vec<_>>());
        for stream in [0, 2, 3, 4, 5, 257, 65_537, u32::MAX] {
            let set = set.with_stream(stream);
            if matches!(set.profile, 6 | 7) && (1..=4).contains(&stream) {
                assert_eq!(set.test(), Ok(()));
                continue;
            }
            let fits = least(set); // 7 is below every size
            for (set, refusal) in [(set, Stream), (Set { n: 7, ..set }, Size { fits }), (Set { bits: 3, ..set }, Bits)] {
                let all = all_say(set, refusal);
                assert_eq!((set.test(), said(set, n, false), said(set, n, true)), (Err(refusal), all, all));
            }
        }
    }
    let said = "refused with 16: the spatial stream isn't 1 to 4, or isn't 1 and the profile is neither 6 nor 7";
    assert_eq!(listed[2].with_stream(2).test().unwrap_err().to_string(), said);
}
