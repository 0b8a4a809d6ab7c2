//! A job, from its sections to bytes and back.

use crate::cases::PlaneCase;

/// Frame, units, deblocked, CDEF: 16-bit entries, two's complement in the units.
#[derive(Clone, Debug, PartialEq, Eq)]
pub struct Job {
    pub sections: [Vec<u16>; 4],
}

impl Job {
    pub fn new(case: &PlaneCase) -> Self {
        let frame = case.frame.numbers();
        let entries = |numbers: &[i32]| numbers.iter().map(|&number| number as u16).collect();
        Job {
            sections: [
                entries(&frame),
                entries(&case.units),
                entries(&case.deblocked),
                entries(&case.cdef),
            ],
        }
    }

    /// Each section after its count.
    pub fn bytes(&self) -> Vec<u8> {
        self.bytes_with(self.counts())
    }

    pub fn counts(&self) -> [u16; 4] {
        std::array::from_fn(|section| self.sections[section].len() as u16)
    }

    /// The same with other counts before the sections.
    pub fn bytes_with(&self, counts: [u16; 4]) -> Vec<u8> {
        let counted = counts.into_iter().zip(&self.sections);
        let entries = counted
            .flat_map(|(count, entries)| std::iter::once(count).chain(entries.iter().copied()));
        entries.flat_map(u16::to_le_bytes).collect()
    }

    /// The sections, or nothing where bytes end early or trail, or the frame has not 8 entries.
    pub fn read(bytes: &[u8]) -> Option<Self> {
        let mut rest = bytes;
        let mut sections: [Vec<u16>; 4] = Default::default();
        for section in &mut sections {
            let count = entry(&mut rest)?;
            for _ in 0..count {
                section.push(entry(&mut rest)?);
            }
        }
        (rest.is_empty() && sections[0].len() == 8).then_some(Job { sections })
    }
}

/// The next entry, low byte first.
fn entry(rest: &mut &[u8]) -> Option<u16> {
    let (bytes, after) = rest.split_first_chunk::<2>()?;
    *rest = after;
    Some(u16::from_le_bytes(*bytes))
}
