//! The second reader of a job file: the records as their headers announce them, one after the
//! other, and the first fault among them.

use std::iter::successors;

use crate::jobs::{body_length, Fault, Job, Room, EDGE, END, FIXED, HEADER, POSE, SETTINGS};

/// A record as its header announces it, with all the bytes behind the header.
struct Record<'a> {
    at: usize,
    length: u16,
    kind: u16,
    behind: &'a [u8],
}

impl<'a> Record<'a> {
    /// None where fewer bytes are left than a header has.
    fn starting(bytes: &'a [u8], at: usize) -> Option<Self> {
        let [a, b, c, d, behind @ ..] = bytes.get(at..)? else {
            return None;
        };
        Some(Self {
            at,
            length: u16::from_le_bytes([*a, *b]),
            kind: u16::from_le_bytes([*c, *d]),
            behind,
        })
    }

    /// The offset just behind the body.
    fn end(&self) -> usize {
        self.at + HEADER + usize::from(self.length)
    }

    /// None where it is cut short.
    fn body(&self) -> Option<&'a [u8]> {
        self.behind.get(..usize::from(self.length))
    }

    fn words(&self) -> impl Iterator<Item = u32> + 'a {
        let chunks = self.body().unwrap_or(&[]).chunks_exact(4);
        chunks.map(|b| u32::from_le_bytes([b[0], b[1], b[2], b[3]]))
    }

    /// The first fault of this record, given those before it, which have none.
    fn fault(&self, before: &[Self], room: &Room) -> Option<Fault> {
        let previous = before.last().map_or(0, |record| record.kind);
        let same = before.iter().rev().take_while(|r| r.kind == self.kind);
        let number = if body_length(self.kind) != Some(self.length) || !follows(self.kind, previous)
        {
            30
        } else if self.body().is_none() {
            31
        } else if same.count() >= room.of_kind(self.kind) {
            32
        } else {
            return None;
        };
        Some((number, self.at))
    }
}

/// Settings first and once, and no kind below the one before it; 0 where there is none before.
fn follows(kind: u16, previous: u16) -> bool {
    match previous {
        0 => kind == SETTINGS,
        SETTINGS => kind > SETTINGS,
        _ => kind >= previous,
    }
}

/// From one header to the next, up to an end record or until no header is left.
fn announced(bytes: &[u8]) -> Vec<Record<'_>> {
    let next = |record: &Record| match record.kind {
        END => None,
        _ => Record::starting(bytes, record.end()),
    };
    successors(Record::starting(bytes, 0), next).collect()
}

pub fn read(bytes: &[u8], room: Room) -> Result<Job, Fault> {
    let records = announced(bytes);
    let mut each = records.iter().enumerate();
    if let Some(fault) = each.find_map(|(k, record)| record.fault(&records[..k], &room)) {
        return Err(fault);
    }
    let behind = records.last().map_or(0, Record::end);
    let ended = records.last().is_some_and(|record| record.kind == END);
    match ended {
        false => Err((31, behind)),
        true if behind < bytes.len() => Err((30, behind)),
        true => Ok(meant(&records)),
    }
}

/// What records without a fault mean.
fn meant(records: &[Record]) -> Job {
    let words = |kind: u16, from: usize, to: usize| {
        let of_kind = records.iter().filter(move |record| record.kind == kind);
        of_kind.flat_map(move |record| record.words().take(to).skip(from))
    };
    let mut settings = [0; 4];
    let each = settings.iter_mut().zip(words(SETTINGS, 0, 4));
    each.for_each(|(setting, word)| *setting = word);
    let halves: Vec<u32> = words(POSE, 0, 24).collect();
    let whole = |half: &[u32]| u64::from(half[0]) | u64::from(half[1]) << 32;
    Job {
        settings,
        poses: halves.chunks_exact(2).map(whole).collect(),
        ends: words(EDGE, 0, 2).collect(),
        edges: words(EDGE, 2, 10).collect(),
        fixed: words(FIXED, 0, 1).collect(),
    }
}

#[cfg(test)]
mod tests {
    use super::*;
    use crate::job_inputs::{job, Lengths};
    use crate::jobs::{records, write};
    use crate::random::Random;
    use crate::samples::two_poses;

    const AMPLE: Room = Room {
        poses: 9,
        edges: 9,
        fixed: 9,
    };

    /// The two-pose graph: its records start at 0, 20, 120, 220, 264 and 272, and it ends at 276.
    fn sample() -> Job {
        Job::of(&two_poses(1.0, 1.0))
    }

    fn told(bytes: &[u8]) -> Fault {
        read(bytes, AMPLE).expect_err("a fault")
    }

    /// The sample's records, changed.
    fn but(change: impl Fn(&mut Vec<Vec<u8>>)) -> Vec<u8> {
        let mut list = records(&sample());
        change(&mut list);
        list.concat()
    }

    /// The sample's bytes with one of them changed.
    fn with(at: usize, byte: u8) -> Vec<u8> {
        let mut bytes = write(&sample());
        bytes[at] = byte;
        bytes
    }

    #[test]
    fn what_is_written_is_read_again_to_the_bit() {
        for index in 0..200 {
            let job = job(&mut Random::of_case(2, 1, index));
            let room = Lengths::exact(&job).room();
            assert_eq!(read(&write(&job), room), Ok(job));
        }
    }

    #[test]
    fn nothing_at_all_is_cut_short_at_0_and_a_job_without_end_at_its_length() {
        assert_eq!(told(&[]), (31, 0));
        assert_eq!(told(&but(|list| list.truncate(5))), (31, 272));
        assert_eq!(told(&but(|list| list.truncate(1))), (31, 20));
    }

    #[test]
    fn every_cut_is_31_at_the_record_that_it_cuts() {
        let bytes = write(&sample());
        let starts = [0, 20, 120, 220, 264, 272];
        for cut in 0..bytes.len() {
            let at = starts.iter().rfind(|start| **start <= cut);
            assert_eq!(told(&bytes[..cut]), (31, *at.unwrap_or(&0)), "{cut}");
        }
    }

    #[test]
    fn a_length_that_is_not_its_kinds_is_30_where_the_record_starts() {
        for (header, at) in [0, 20, 120, 220, 264, 272].into_iter().enumerate() {
            for byte in [1, 17, 95, 97, 255] {
                assert_eq!(told(&with(at, byte)), (30, at), "{header}");
            }
            assert_eq!(told(&with(at + 1, 1)), (30, at));
        }
    }

    #[test]
    fn an_unknown_kind_is_30() {
        for kind in [0, 6, 7, 255] {
            assert_eq!(told(&with(122, kind)), (30, 120));
        }
        assert_eq!(told(&with(123, 1)), (30, 120));
        assert_eq!(told(&with(2, 0)), (30, 0));
    }

    #[test]
    fn kinds_never_fall() {
        assert_eq!(told(&but(|list| list.swap(2, 3))), (30, 164));
        assert_eq!(told(&but(|list| list.swap(3, 4))), (30, 228));
    }

    #[test]
    fn settings_come_first_and_once() {
        assert_eq!(told(&but(|list| drop(list.remove(0)))), (30, 0));
        assert_eq!(told(&but(|list| list.swap(0, 1))), (30, 0));
        assert_eq!(told(&but(|list| list.insert(1, list[0].clone()))), (30, 20));
        assert_eq!(told(&[0, 0, 5, 0]), (30, 0));
    }

    #[test]
    fn any_byte_after_the_end_is_30_just_behind_it() {
        assert_eq!(told(&but(|list| list.push(vec![0]))), (30, 276));
        assert_eq!(told(&but(|list| list.push(list[5].clone()))), (30, 276));
        assert_eq!(told(&but(|list| list.push(vec![9; 50]))), (30, 276));
    }

    #[test]
    fn one_too_many_is_32_at_the_first_that_does_not_fit() {
        let says = |poses, edges, fixed| {
            let room = Room {
                poses,
                edges,
                fixed,
            };
            read(&write(&sample()), room).err()
        };
        assert_eq!(says(2, 1, 1), None);
        assert_eq!(says(1, 1, 1), Some((32, 120)));
        assert_eq!(says(0, 0, 0), Some((32, 20)));
        assert_eq!(says(2, 0, 1), Some((32, 220)));
        assert_eq!(says(2, 1, 0), Some((32, 264)));
    }

    #[test]
    fn within_a_record_30_comes_before_a_cut_body_and_that_before_32() {
        let none = Room::of(11, 2, 7, 0);
        let says = |bytes: &[u8]| read(bytes, none).err();
        let bytes = write(&sample());
        assert_eq!(says(&with(20, 95)[..30]), Some((30, 20)));
        assert_eq!(says(&bytes[..119]), Some((31, 20)));
        assert_eq!(says(&bytes[..120]), Some((32, 20)));
        assert_eq!(says(&with(120, 0)), Some((32, 20)));
        assert_eq!(says(&bytes[..23]), Some((31, 20)));
    }
}
