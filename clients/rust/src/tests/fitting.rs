// The size that refusal 3 carries, against lists of sizes. That every call on a set hands it on, spatial.rs tries.
use super::*;

// The least of some sizes that is not below n.
pub fn next_of(sizes: &[u32], n: u32) -> u32 {
    sizes.iter().copied().find(|&size| size >= n).unwrap_or(0)
}

#[test]
fn refusal_3_says_which_size_fits() {
    let doubled: Vec<u32> = (0..5).map(|i| 24 << i).collect();
    let halves: Vec<u32> = (1..=3).map(|i| 192 * i).collect();
    let threes: Vec<u32> = (1..=32).map(|i| 48 * i).collect();
    let lists =
        [(1, 2, doubled), (2, 4, halves), (3, 4, vec![192]), (4, 6, threes), (5, 1, (40..=5114).collect()), (6, 6, vec![312]), (7, 1, vec![108])];
    for (profile, bits, sizes) in lists {
        for n in (0..=6200).chain([65_536, u32::MAX]) {
            match Set::new(profile, bits, n) {
                Ok(set) => assert_eq!((set.size() as u32, sizes.contains(&n)), (n, true)),
                refused => assert_eq!((refused, sizes.contains(&n)), (Err(Refusal::Size { fits: next_of(&sizes, n) }), false)),
            }
        }
    }
    let late = Set::new(3, 4, 192).unwrap().with_stream(9);
    assert_eq!((late.test(), Set::new(3, 3, 100), Set::new(10, 4, 100)), (Err(Refusal::Stream), Err(Refusal::Bits), Err(Refusal::Profile)));
    let said = [100, 193].map(|n| Set::new(3, 4, n).unwrap_err().to_string());
    let sentence = "refused with 3: N isn't listed for that profile and those bits";
    assert_eq!(said, [format!("{sentence}; the next listed one is 192"), format!("{sentence}; no listed one is so large")]);
}

// Where 1 comes before the test's 3, it carries nothing.
#[test]
fn the_walk_for_m_of_profile_5() {
    let set = Set { profile: 5, bits: 1, n: 39, stream: 1, factors: [0; 4] };
    assert_eq!((set.test(), Walk::targets(set).fill(&mut [0; 3])), (Err(Refusal::Size { fits: 40 }), Err(Refusal::Profile)));
}
