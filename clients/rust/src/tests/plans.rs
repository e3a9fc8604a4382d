// Plan files: written and judged beside files made byte by byte, from lists of the formula and of the walk; every refusal, and the size that 3
// carries.
use super::*;
use crate::plans::{count, judge, length, write, write_into, Judged};

const SETS: [[u32; 3]; 12] = [
    [1, 1, 12],
    [1, 6, 1152],
    [2, 2, 96],
    [2, 6, 576],
    [3, 1, 48],
    [3, 4, 192],
    [3, 6, 288],
    [4, 4, 64],
    [4, 6, 96],
    [5, 1, 40],
    [5, 1, 41],
    [5, 1, 5114],
];

fn untested([profile, bits, n]: [u32; 3]) -> Set {
    Set { profile, bits, n, stream: 1, factors: [0; 4] }
}

// L: by the formula for M of the carrier profiles, turned round; of profile 5 by single addresses where they are few, else by the walk.
fn list([profile, bits, n]: [u32; 3]) -> Vec<u16> {
    let set = untested([profile, bits, n]);
    if profile == 5 && n > 100 {
        return set.sources().unwrap();
    } else if profile == 5 {
        return (0..n).map(|t| set.source(t).unwrap() as u16).collect();
    }
    let (d, s) = (if profile == 1 { 12 } else { 16 }, (bits / 2).max(1));
    let mut list = vec![0; n as usize];
    for k in 0..n {
        let i = n / d * (k % d) + k / d;
        list[(s * (i / s) + (i + n - d * i / n) % s) as usize] = k as u16;
    }
    list
}

// A file of given sets and lists.
fn file_of(plans: &[([u32; 3], Vec<u16>)]) -> Vec<u8> {
    let (mut header, mut lists) = (vec![plans.len() as u32], Vec::new());
    for ([profile, bits, n], list) in plans {
        let offset = 4 + 20 * plans.len() + lists.len();
        header.extend([*profile, *bits, *n, offset as u32, list.len() as u32]);
        lists.extend(list.iter().flat_map(|a| a.to_be_bytes()));
    }
    header.iter().flat_map(|x| x.to_be_bytes()).chain(lists).collect()
}

fn ours(sets: &[[u32; 3]]) -> Vec<([u32; 3], Vec<u16>)> {
    sets.iter().map(|&set| (set, list(set))).collect()
}

#[test]
fn a_file_is_written_and_judged() {
    for sets in SETS.chunks(1).chain((1..=SETS.len()).map(|plans| &SETS[..plans])) {
        let (made, plans) = (file_of(&ours(sets)), sets.len() as u32);
        assert_eq!((length(sets), write(sets).as_ref(), count(&made)), (Ok(made.len()), Ok(&made), Ok(plans)));
        assert!((1..=plans).all(|plan| judge(&made, plan) == Ok(Judged::Equal)));
        for past in [0, plans + 1, 17, 257, u32::MAX] {
            assert_eq!(judge(&made, past), Err(Refusal::Position));
        }
        for room in [0, made.len() - 1, made.len() + 1] {
            let mut out = vec![0xee; room];
            assert_eq!((write_into(sets, &mut out), out), (Err(Refusal::Output), vec![0xee; room]));
        }
    }
}

#[test]
fn wrong_places_are_counted() {
    for set in SETS {
        let (l, n) = (list(set), set[2]);
        let of = |given: &[u16]| {
            let file = file_of(&[([3, 4, 192], list([3, 4, 192])), (set, given.to_vec()), ([5, 1, 40], vec![])]);
            assert_eq!((judge(&file, 1), judge(&file, 3)), (Ok(Judged::Equal), Ok(Judged::Wrong { first: 0, count: 40 })));
            judge(&file, 2).unwrap()
        };
        for t in [0, 1, n / 2, n - 2, n - 1] {
            for flip in [1, 0x100, 0x8000] {
                let mut changed = l.clone();
                changed[t as usize] ^= flip;
                assert_eq!(of(&changed), Judged::Wrong { first: t, count: 1 });
            }
        }
        let mut swapped = l.clone();
        swapped.swap(2, 7);
        assert_eq!(of(&swapped), Judged::Wrong { first: 2, count: 2 });
        swapped.extend([0; 5]);
        assert_eq!(of(&swapped), Judged::Wrong { first: 2, count: 7 });
        for few in [1, 3, n - 1, n] {
            assert_eq!(of(&l[..(n - few) as usize]), Judged::Wrong { first: n - few, count: few });
            assert_eq!(of(&[&l[..], &vec![0; few as usize]].concat()), Judged::Wrong { first: n, count: few });
        }
    }
}

#[test]
fn a_file_that_is_not_of_the_form() {
    let unformed =
        |file: &[u8]| count(file) == Err(Refusal::Form) && [0, 1, 2, 3, u32::MAX].iter().all(|&plan| judge(file, plan) == Err(Refusal::Form));
    let file = file_of(&ours(&[[3, 4, 192], [5, 1, 40]]));
    assert!((0..file.len()).all(|short| unformed(&file[..short])));
    assert!([1, 2, 3, 4].iter().all(|&long| unformed(&[&file[..], &vec![0; long]].concat())));
    for at in (0..11).filter(|at| at % 5 == 0 || at % 5 == 4) {
        for number in [0, 1, 3, 17, 46, 65_536, 1 << 31, (1 << 31) + 40, (1 << 31) + 192, u32::MAX] {
            let mut other = file.clone();
            other[4 * at..][..4].copy_from_slice(&number.to_be_bytes());
            assert!(unformed(&other), "{number} as number {at} of the header");
        }
    }
    let long = |addresses: usize| file_of(&[([3, 4, 192], vec![0; addresses])]);
    assert_eq!((long(32_756).len(), count(&long(32_756))), (65_536, Ok(1)));
    assert!(unformed(&long(32_757)));
    let many = |plans: usize| file_of(&vec![([3, 4, 192], vec![]); plans]);
    assert_eq!((count(&many(16)), count(&many(17)), count(&many(0))), (Ok(16), Err(Refusal::Form), Err(Refusal::Form)));
}

// Sets that are refused, with their refusal: in a file, alone, and before and behind another one.
#[test]
fn refused_sets() {
    let size = |fits| Refusal::Size { fits };
    let refused = [
        ([0, 4, 192], Refusal::Profile),
        ([6, 4, 208], Refusal::Profile),
        ([6, 4, 100], Refusal::Profile),
        ([8, 1, 40], Refusal::Profile),
        ([9, 1, 24], Refusal::Profile),
        ([261, 1, 40], Refusal::Profile),
        ([u32::MAX, 4, 192], Refusal::Profile),
        ([3, 3, 192], Refusal::Bits),
        ([5, 4, 192], Refusal::Bits),
        ([3, 4, 100], size(192)),
        ([3, 4, 193], size(0)),
        ([4, 6, 50], size(96)),
        ([5, 1, 39], size(40)),
        ([5, 1, u32::MAX], size(0)),
    ];
    for (set, refusal) in refused {
        let file = file_of(&[([3, 4, 192], list([3, 4, 192])), (set, vec![1, 2, 3])]);
        assert_eq!((count(&file), judge(&file, 1), judge(&file, 2)), (Ok(2), Ok(Judged::Equal), Err(refusal)));
        assert_eq!((judge(&file, 3), judge(&file[..50], 2)), (Err(Refusal::Position), Err(Refusal::Form)));
        for (later, _) in refused {
            for sets in [vec![set], vec![set, later], vec![SETS[0], set, SETS[11], later], [vec![SETS[11]; 14], vec![set, later]].concat()] {
                let mut out = [0xee; 60];
                assert_eq!((length(&sets), write(&sets)), (Err(refusal), Err(refusal)));
                assert_eq!((write_into(&sets, &mut out), out), (Err(refusal), [0xee; 60]));
            }
        }
        assert_eq!((length(&[set; 17]), write(&[set; 17])), (Err(Refusal::Form), Err(Refusal::Form)));
    }
}

#[test]
fn too_many_sets_and_too_large_a_file() {
    for sets in [&[][..], &[SETS[0]; 17], &[SETS[11]; 16], &[SETS[11]; 7]] {
        assert_eq!((length(sets), write(sets), write_into(sets, &mut [])), (Err(Refusal::Form), Err(Refusal::Form), Err(Refusal::Form)));
    }
    let mut sets = [SETS[11]; 7];
    sets[6][2] = 2013;
    assert_eq!(length(&sets), Err(Refusal::Form));
    sets[6][2] = 2012;
    assert_eq!((length(&sets), write(&sets)), (Ok(65_536), Ok(file_of(&ours(&sets)))));
    assert_eq!(write_into(&sets, &mut [0; 65_535]), Err(Refusal::Output));
    assert_eq!(Refusal::Form.number(), 12);
}
