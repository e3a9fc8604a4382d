// Byte streams of both kinds: output and record beside their closed form, in ragged parts, from a start and from records in the middle; there and
// back; refusals and their order.
use super::*;
use crate::streams::Record;

struct Kind<const STORE: usize> {
    kind: u32,
    branches: usize,
    step: usize,
    delay: usize,
    ways: [fn(u8) -> Stream<STORE>; 2],
}

const DVB: Kind<1122> = Kind { kind: 1, branches: 12, step: 17, delay: 2244, ways: [Dvb::interleaver, Dvb::deinterleaver] };
const ATSC: Kind<5304> = Kind { kind: 2, branches: 52, step: 4, delay: 10_608, ways: [Atsc::interleaver, Atsc::deinterleaver] };
const FILL: u8 = 170;

fn input(n: usize) -> Vec<u8> {
    (0..n).map(|i| (i * 31 + i / 251) as u8).collect()
}

// Lengths that are ragged, some of them 0, and that are n together.
fn parts(n: usize, most: usize) -> impl Iterator<Item = usize> {
    let mut left = n;
    (0..).map_while(move |number| {
        let part = (number * 9973 % most).min(left);
        let more = left > 0;
        left -= part;
        more.then_some(part)
    })
}

impl<const STORE: usize> Kind<STORE> {
    fn started(&self) -> Record {
        Record { kind: self.kind, branch: 0, places: [0; 51] }
    }

    // A record whose places lie in the middle of their rings.
    fn standing(&self, branch: usize) -> Record {
        let mut record = self.started();
        record.branch = branch as u32;
        for x in 1..self.branches {
            record.places[x - 1] = ((branch * 89 + x * 61) % (self.step * x)) as u32;
        }
        record
    }

    // The ring of branch j, and the branch of ring x.
    fn across(&self, back: usize, j: usize) -> usize {
        [j, self.branches - 1 - j][back]
    }

    // The record that t bytes from a record come to.
    fn after(&self, back: usize, from: Record, t: usize) -> Record {
        let (b, j) = (self.branches, from.branch as usize);
        let mut record = Record { branch: ((j + t) % b) as u32, ..from };
        for x in 1..b {
            let first = (self.across(back, x) + b - j) % b;
            let passed = (t + b - 1 - first) / b;
            record.places[x - 1] = ((from.places[x - 1] as usize + passed) % (self.step * x)) as u32;
        }
        record
    }

    fn run(&self, back: usize, from: Record, input: &[u8], most: usize) {
        let (b, mut machine, mut out, mut at) = (self.branches, self.ways[back](FILL), vec![0; input.len()], 0);
        assert_eq!((machine.record, machine.store), (self.started(), [FILL; STORE]));
        machine.record = from;
        for part in parts(input.len(), most) {
            machine.feed(&input[at..at + part], &mut out[at..at + part]).unwrap();
            at += part;
            assert_eq!(machine.record, self.after(back, from, at));
        }
        for (t, &byte) in out.iter().enumerate() {
            let late = b * self.step * self.across(back, (from.branch as usize + t) % b);
            assert_eq!(byte, t.checked_sub(late).map_or(FILL, |i| input[i]));
        }
    }

    fn runs(&self) {
        for back in [0, 1] {
            self.run(back, self.started(), &input(60_000), 613);
            self.run(back, self.started(), &input(60_000), 25_013);
            self.run(back, self.started(), &vec![0; self.delay + 700], 613);
            for branch in 0..self.branches {
                self.run(back, self.standing(branch), &input(self.delay + 37 * branch), [613, 25_013][branch % 2]);
            }
        }
    }

    fn there_and_back(&self, from: Record) {
        let (input, [mut there, mut back]) = (input(60_000), self.ways.map(|start| start(FILL)));
        let (mut sent, mut received) = (vec![0; input.len()], vec![0; input.len()]);
        (there.record, back.record) = (from, from);
        for (part, out) in input.chunks(613).zip(sent.chunks_mut(613)) {
            there.feed(part, out).unwrap();
        }
        for (part, out) in sent.chunks(97).zip(received.chunks_mut(97)) {
            back.feed(part, out).unwrap();
        }
        assert!(received[..self.delay].iter().all(|&byte| byte == FILL));
        assert_eq!(received[self.delay..], input[..input.len() - self.delay]);
    }

    // What a feed says, each way, from a record; a refused one changes nothing.
    fn said(&self, record: Record, input: usize, output: usize) -> Result<(), Refusal> {
        let [there, back] = self.ways.map(|start| {
            let (mut machine, mut out) = (start(FILL), [5; 301]);
            machine.record = record;
            let said = machine.feed(&[1; 301][..input], &mut out[..output]);
            assert!(said.is_ok() || (machine.record, machine.store, out) == (record, [FILL; STORE], [5; 301]));
            said
        });
        assert_eq!(there, back);
        there
    }

    // A refusal that stands before that of the output.
    fn refused(&self, record: Record, refusal: Refusal) {
        let lengths = [(300, 300), (0, 0), (300, 299), (300, 301), (0, 1)];
        assert_eq!(lengths.map(|(input, output)| self.said(record, input, output)), [Err(refusal); 5]);
    }

    // 9 for the kind, 7 for a store that is the other kind's, 9 for branch and places, 6.
    fn order(&self) {
        for fair in [self.started(), self.standing(1), self.standing(self.branches - 1)] {
            assert_eq!([(300, 299), (299, 300), (0, 1), (1, 0)].map(|(input, output)| self.said(fair, input, output)), [Err(Refusal::Output); 4]);
            assert_eq!([(300, 300), (0, 0)].map(|(input, output)| self.said(fair, input, output)), [Ok(()); 2]);
            let off = |x: usize| if x < self.branches { (self.step * x) as u32 } else { 1 };
            let branches = [self.branches as u32, 256, 65_536, u32::MAX].map(|branch| Record { branch, ..fair });
            let places = (1..=51).flat_map(|x| [off(x), 65_536, u32::MAX].map(|place| (x, place))).map(|(x, place)| {
                let mut record = fair;
                record.places[x - 1] = place;
                record
            });
            for record in branches.into_iter().chain(places) {
                self.refused(record, Refusal::Record);
                self.refused(Record { kind: 3 - self.kind, ..record }, Refusal::Store);
                for kind in [0, 3, 257, 65_538, u32::MAX] {
                    self.refused(Record { kind, ..record }, Refusal::Record);
                    self.refused(Record { kind, ..fair }, Refusal::Record);
                }
            }
        }
    }

    // The call below the wrapper: a start over a record that held anything, refused by its kind or then by its store, or done.
    fn starts(&self) {
        let held = Record { kind: 77, branch: 78, places: [79; 51] };
        let start = |kind, length| {
            let (mut store, mut record) = ([3; 5305], held);
            // SAFETY: the store is live, and at least that long.
            let number = unsafe { raw::interleaver_stream_start(kind, store.as_mut_ptr(), length, 9, &mut record) };
            let filled = if number == 0 { length } else { 0 };
            assert!(store[..filled].iter().all(|&byte| byte == 9) && store[filled..].iter().all(|&byte| byte == 3));
            assert_eq!(record, if number == 0 { self.started() } else { held });
            number
        };
        let kinds = [self.kind, 0, 3, 257, 65_538, 2_147_483_649, u32::MAX];
        for length in [0, STORE - 1, STORE + 1, 6426 - STORE] {
            assert_eq!(kinds.map(|kind| start(kind, length)), [7, 9, 9, 9, 9, 9, 9]);
        }
        assert_eq!(kinds.map(|kind| start(kind, STORE)), [0, 9, 9, 9, 9, 9, 9]);
    }
}

#[test]
fn streams_go_by_the_closed_form() {
    DVB.runs();
    ATSC.runs();
}

#[test]
fn streams_come_back_late() {
    DVB.there_and_back(DVB.started());
    DVB.there_and_back(DVB.standing(5));
    ATSC.there_and_back(ATSC.started());
    ATSC.there_and_back(ATSC.standing(29));
    assert_eq!((Dvb::DELAY, Dvb::STORE, Atsc::DELAY, Atsc::STORE), (DVB.delay, 1122, ATSC.delay, 5304));
}

#[test]
fn streams_refuse_in_order() {
    assert_eq!(std::mem::size_of::<Record>(), 53 * 4);
    DVB.order();
    ATSC.order();
    DVB.starts();
    ATSC.starts();
}
