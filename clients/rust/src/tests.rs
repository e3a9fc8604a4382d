// Every function of the wrapper over the archive: refusals, slices left alone, the bits of floats and sums, walks cut into parts.
// spatial.rs has the streams of profiles 6 and 7, factors.rs the factors of profile 8, couples.rs profile 9, fitting.rs the size that refusal 3
// carries, streams.rs byte streams, plans.rs plan files, report.rs the padding report.
use super::refusal::answer;
use super::*;

mod couples;
mod factors;
mod fitting;
mod plans;
mod report;
mod spatial;
mod streams;

fn sets() -> impl Iterator<Item = Set> {
    let listed = [(1, 1, 12), (1, 6, 1152), (2, 6, 576), (3, 4, 192), (3, 6, 288), (4, 6, 96), (5, 1, 40), (5, 1, 41), (5, 1, 2281), (5, 1, 5114)];
    let plain = listed.into_iter().map(|(profile, bits, n)| Set::new(profile, bits, n).unwrap());
    plain.chain(spatial::sets()).chain(factors::sets()).chain(couples::sets())
}

// Those that have receptions.
fn received() -> impl Iterator<Item = Set> {
    sets().filter(|set| set.profile != 9)
}

// The input symbol of each output symbol. Of profile 9 the list is one of couples: an odd one is its B, its A.
fn symbols(set: Set) -> Vec<usize> {
    let list = set.sources().unwrap().into_iter().map(usize::from);
    if set.profile == 9 {
        list.flat_map(|c| [2 * c + c % 2, 2 * c + 1 - c % 2]).collect()
    } else {
        list.collect()
    }
}

#[test]
fn a_set_is_tested() {
    for (number, (profile, bits, n)) in [(1, (0, 4, 192)), (1, (10, 1, 48)), (2, (2, 1, 96)), (3, (3, 4, 96)), (3, (5, 1, 39)), (3, (5, 1, 5115))] {
        assert_eq!(Set::new(profile, bits, n).unwrap_err().number(), number);
    }
    assert_eq!([(1, 48), (4, 48), (1, 520)].map(|(bits, n)| Set::new(8, bits, n).unwrap_err().number()), [11, 2, 3]);
    assert_eq!([(1, 48), (4, 48), (1, 50)].map(|(bits, n)| Set::new(9, bits, n).unwrap_err().number()), [10, 2, 3]);
    assert_eq!(Set::new(3, 3, 192).unwrap_err().to_string(), "refused with 2: the bits aren't listed for the profile");
}

#[test]
fn a_refusal_is_its_number() {
    assert_eq!(answer(0), Ok(()));
    for number in (1..1000).chain([u32::MAX]) {
        let refusal = answer(number).unwrap_err();
        assert_eq!((refusal.number(), refusal == Refusal::Other(number)), (number, !matches!(number, 1..=7 | 9..=16)));
        assert!(refusal.to_string().starts_with(&format!("refused with {number}: ")));
    }
    assert_eq!([1, 5, 6, 9].map(|number| answer(number).unwrap_err()), [Refusal::Profile, Refusal::Input, Refusal::Output, Refusal::Record]);
    let late = [Refusal::Shared, Refusal::Factors, Refusal::Form, Refusal::Finite, Refusal::Presence, Refusal::Count, Refusal::Stream];
    assert_eq!([10, 11, 12, 13, 14, 15, 16].map(|number| answer(number).unwrap_err()), late);
    assert_eq!(answer(8).unwrap_err().to_string(), "refused with 8: for a reason that has no name here");
}

#[test]
fn starred_addresses() {
    let set = Set::new(3, 4, 192).unwrap();
    assert_eq!([0, 1, 16, 17, 191].map(|k| set.target(k).unwrap()), [0, 13, 1, 12, 190]);
    let set = Set::new(4, 4, 64).unwrap();
    assert_eq!([4, 5, 6, 7].map(|t| set.source(t).unwrap()), [17, 1, 49, 33]);
    assert_eq!((set.source(64), set.target(u32::MAX)), (Err(Refusal::Position), Err(Refusal::Position)));
    let full = Set::new(5, 1, 40).unwrap();
    assert_eq!([0, 1, 34, 35, 36].map(|t| full.source(t).unwrap()), [39, 25, 0, 33, 31]);
    assert_eq!([39, 33].map(|k| full.target(k).unwrap()), [0, 35]);
}

#[test]
fn walks_cut_into_parts() {
    for set in sets() {
        let list = set.sources().unwrap();
        for (t, &l) in list.iter().enumerate().step_by(97) {
            assert_eq!(set.source(t as u32), Ok(l as u32));
            assert_eq!(set.target(l as u32), Ok(t as u32));
        }
        let (mut walk, mut joined, mut part) = (Walk::sources(set), Vec::<u16>::new(), [0; 61]);
        for room in (0..62).cycle() {
            let before = walk.cell;
            let Walked { written, cells } = walk.fill(&mut part[..room]).unwrap();
            assert_eq!(walk.cell, before + cells);
            joined.extend(&part[..written]);
            if written < room {
                break;
            }
        }
        assert_eq!(joined, list);
        walk.cell += 1;
        let past = walk;
        part = [7; 61];
        assert_eq!(walk.fill(&mut part), Err(Refusal::Record));
        assert_eq!((walk, part), (past, [7; 61]));
        match set.targets() {
            Ok(back) => assert!(back.iter().enumerate().all(|(k, &m)| list[m as usize] as usize == k)),
            Err(number) => assert!(number == Refusal::Profile && matches!(set.profile, 5 | 8 | 9)),
        }
    }
}

#[test]
fn bytes_there_and_back() {
    for set in sets() {
        let n = set.symbols();
        let src: Vec<u8> = (0..n).map(|i| (i * 31 + i / 251) as u8).collect();
        let (mut sent, mut received) = (vec![9; n], vec![8; n]);
        assert_eq!(set.interleave(&src[1..], &mut sent), Err(Refusal::Input));
        assert_eq!(set.deinterleave(&src, &mut sent[1..]), Err(Refusal::Output));
        assert_eq!(set.interleave(&[], &mut []), Err(Refusal::Input));
        assert_eq!(sent, vec![9; n]);
        set.interleave(&src, &mut sent).unwrap();
        assert!(symbols(set).iter().zip(&sent).all(|(&l, &x)| src[l] == x));
        set.deinterleave(&sent, &mut received).unwrap();
        assert_eq!(received, src);
    }
}

#[test]
fn symbols_of_every_width() {
    for set in sets() {
        for width in 0..10 {
            let (w, size) = (width as usize, set.symbols() * width as usize);
            let src: Vec<u8> = (0..size).map(|i| (i * 31 + i / 251) as u8).collect();
            let (mut sent, mut received) = (vec![9; size], vec![8; size]);
            assert_eq!(set.interleave_symbols(width + 1, &src, &mut sent), Err(Refusal::Input));
            assert_eq!(set.deinterleave_symbols(width, &src, &mut [0]), Err(Refusal::Output));
            assert_eq!(sent, vec![9; size]);
            set.interleave_symbols(width, &src, &mut sent).unwrap();
            for (t, l) in symbols(set).into_iter().enumerate() {
                assert_eq!(sent[t * w..][..w], src[l * w..][..w]);
            }
            set.deinterleave_symbols(width, &sent, &mut received).unwrap();
            assert_eq!(received, src);
        }
    }
}

#[test]
fn floats_keep_their_bits() {
    for set in sets() {
        let n = set.symbols();
        let pattern = |i: u32| match i % 5 {
            0 => 0x7f80_0001 | i << 4,              // a signalling NaN, with a payload
            1 => 0xffc0_0000 | i,                   // a quiet one, with its sign
            2 => 0x8000_0000,                       // minus zero
            3 => i,                                 // a denormal
            _ => i.wrapping_mul(2_654_435_761) | 1, // any
        };
        let bits: Vec<u32> = (0..n as u32).map(pattern).collect();
        let src: Vec<f32> = bits.iter().map(|&b| f32::from_bits(b)).collect();
        let (mut sent, mut received) = (vec![0.5f32; n], vec![0.25f32; n]);
        assert_eq!(set.interleave_soft(&src, &mut sent[1..]), Err(Refusal::Output));
        assert_eq!(set.deinterleave_soft(&src[1..], &mut sent), Err(Refusal::Input));
        assert_eq!(sent, vec![0.5; n]);
        set.interleave_soft(&src, &mut sent).unwrap();
        assert!(symbols(set).iter().zip(&sent).all(|(&l, x)| bits[l] == x.to_bits()));
        set.deinterleave_soft(&sent, &mut received).unwrap();
        assert!(received.iter().zip(&bits).all(|(x, &b)| x.to_bits() == b));
    }
}

#[test]
fn receptions_are_added_up() {
    let mut x = 1u32;
    for set in received() {
        let (n, list) = (set.size(), set.sources().unwrap());
        let (mut sums, mut counts, mut eighths, mut heard) = (vec![f32::NAN; n], vec![0; n], vec![0; n], vec![0; n]);
        for _ in 0..3 {
            let (mut received, mut present) = (vec![f32::INFINITY; n], vec![0; n]); // the value of a blank is not looked at
            for (t, &l) in list.iter().enumerate() {
                x = x.wrapping_mul(1_664_525).wrapping_add(1_013_904_223);
                if x >> 30 != 0 {
                    let value = (x >> 12 & 0xffff) as i32 - 0x8000;
                    (received[t], present[t]) = (value as f32 / 8.0, 1);
                    eighths[l as usize] += value;
                    heard[l as usize] += 1;
                }
            }
            set.add_received(&received, &present, &mut sums, &mut counts).unwrap();
            assert_eq!(counts, heard);
            for k in 0..n {
                let held = Running { sum: eighths[k] as f32 / 8.0, count: heard[k] };
                assert_eq!(set.read_sum(&sums, &counts, k as u32), Ok(if heard[k] == 0 { None } else { Some(held) }));
            }
        }
    }
}

#[test]
fn a_sum_keeps_its_bits() {
    let set = Set::new(3, 1, 48).unwrap();
    let k = set.source(1).unwrap();
    let add = |sum: u32, count: u16, value: u32| {
        let (mut received, mut present) = ([f32::NAN; 48], [0; 48]);
        let (mut sums, mut counts) = ([f32::from_bits(sum); 48], [count; 48]);
        (received[1], present[1]) = (f32::from_bits(value), 1);
        set.add_received(&received, &present, &mut sums, &mut counts)?;
        assert!((0..48).filter(|&i| i != k as usize).all(|i| (sums[i].to_bits(), counts[i]) == (sum, count)));
        set.read_sum(&sums, &counts, k).map(|held| held.map(|held| (held.sum.to_bits(), held.count)))
    };
    for first in [0, 0x8000_0000, 1, 0x7f7f_ffff, 0x3e00_0000] {
        // a sum whose count is 0 is not looked at
        assert_eq!([0x40a0_0000, 0x7f80_0001, 0xff80_0000].map(|sum| add(sum, 0, first)), [Ok(Some((first, 1))); 3]);
    }
    assert_eq!(add(0x8000_0000, 1, 0x8000_0000), Ok(Some((0x8000_0000, 2))));
    assert_eq!(add(0x8000_0000, 1, 0), Ok(Some((0, 2))));
    assert_eq!(add(0x49ff_ffff, 1, 0x3e00_0000), Ok(Some((0x4a00_0000, 2)))); // up to 2,097,152
    assert_eq!(add(0x4a00_0000, 65_534, 0x3e00_0000), Ok(Some((0x4a00_0000, 65_535)))); // an eighth more is lost
    assert_eq!(add(0x4a00_0000, 65_535, 0x3e00_0000), Err(Refusal::Count));
    assert_eq!(add(0x7f7f_ffff, 65_535, 0x7f7f_ffff), Err(Refusal::Finite));
    for spoilt in [0x7f80_0001, 0xffc0_0000, 0x7f80_0000, 0xff80_0000] {
        assert_eq!([add(0, 0, spoilt), add(0, 1, spoilt), add(spoilt, 1, 0)], [Err(Refusal::Finite); 3]);
        let blank = |count: u16| set.add_received(&[0.0; 48], &[0; 48], &mut [f32::from_bits(spoilt); 48], &mut [count; 48]);
        assert_eq!([0, 1, 65_535].map(blank), [Ok(()), Err(Refusal::Finite), Err(Refusal::Finite)]);
        let read = set.read_sum(&[f32::from_bits(spoilt); 48], &[2; 48], k).unwrap().unwrap();
        assert_eq!((read.sum.to_bits(), read.count), (spoilt, 2));
    }
}

#[test]
fn a_refused_reception_changes_nothing() {
    for set in received() {
        let n = set.size();
        let (mut received, mut present) = (vec![1.0; n + 1], vec![1; n + 1]);
        let (mut sums, mut counts) = (vec![0.5; n + 1], vec![3; n + 1]);
        let mut lengths = |[a, b, c, d]: [usize; 4]| set.add_received(&received[..a], &present[..b], &mut sums[..c], &mut counts[..d]);
        for off in [n - 1, n + 1] {
            assert_eq!([[off, n, n, n], [n, off, n, n], [off, n, off, n], [n, off, n, off]].map(&mut lengths), [Err(Refusal::Input); 4]);
            assert_eq!([[n, n, off, n], [n, n, n, off]].map(&mut lengths), [Err(Refusal::Output); 2]);
        }
        assert_eq!((&sums, &counts), (&vec![0.5; n + 1], &vec![3; n + 1]));
        counts[set.source(0).unwrap() as usize] = 65_535;
        let kept = counts.clone();
        assert_eq!(set.add_received(&received[..n], &present[..n], &mut sums[..n], &mut counts[..n]), Err(Refusal::Count));
        received[n - 1] = f32::NAN;
        assert_eq!(set.add_received(&received[..n], &present[..n], &mut sums[..n], &mut counts[..n]), Err(Refusal::Finite));
        present[n / 2] = 2;
        assert_eq!(set.add_received(&received[..n], &present[..n], &mut sums[..n], &mut counts[..n]), Err(Refusal::Presence));
        assert_eq!((&sums, &counts), (&vec![0.5; n + 1], &kept));
        assert_eq!(set.read_sum(&sums, &counts, n as u32), Err(Refusal::Position));
        assert_eq!([set.read_sum(&sums, &counts[..n], 0), set.read_sum(&sums[..n], &counts, 0)], [Err(Refusal::Output); 2]);
    }
}
