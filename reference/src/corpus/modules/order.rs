//! Modules with several faults. The order of the checks decides which one is reported.

use super::{rich, CaseBuilder, REVERSED};
use crate::chunks::Name;
use crate::draft::{Chunk, Draft, Tune};

/// A fault of the module `rich`.
#[derive(Clone, Copy)]
enum Fault {
    /// A chunk is missing.
    Without(&'static Name),
    /// A chunk's data has one extra byte.
    More(&'static Name),
    /// A chunk's data has other bytes at an offset.
    Put(&'static Name, usize, &'static [u8]),
}

use Fault::{More, Put, Without};

/// The faults that are checked after all chunks are known, in the order of the checks.
const LATE: [Fault; 32] = [
    Without(b"SMPL"),
    More(b"SONG"),
    More(b"INST"),
    More(b"PATT"),
    Put(b"SMPL", 3, &[3]),
    More(b"VENV"),
    More(b"PENV"),
    Put(b"SONG", 46, &[0, 1]),
    Put(b"INST", 30, &[0, 2]),
    Put(b"INST", 32, &[0, 65]),
    Put(b"INST", 46, &[0, 129]),
    Put(b"INST", 48, &[0, 5]),
    Put(b"VENV", 2, &[0, 0]),
    Put(b"VENV", 4, &[0x1F]),
    Put(b"VENV", 5, &[32]),
    Put(b"VENV", 6, &[33]),
    Put(b"VENV", 7, &[33]),
    Put(b"VENV", 8, &[33]),
    Put(b"VENV", 9, &[33]),
    Put(b"VENV", 12, &[0, 65]),
    Put(b"VENV", 16, &[0xFF, 0xFF]),
    Put(b"PENV", 2, &[0, 2]),
    Put(b"PENV", 4, &[0x8F]),
    Put(b"PENV", 5, &[0xFF]),
    Put(b"PENV", 6, &[0xFF]),
    Put(b"PENV", 7, &[0xFF]),
    Put(b"PENV", 8, &[0xFF]),
    Put(b"PENV", 9, &[0xFF]),
    Put(b"PENV", 12, &[0xFF, 0x7F]),
    Put(b"PENV", 16, &[0, 129]),
    Put(b"INST", 45, &[3]),
    Put(b"PATT", 6, &[5]),
];

impl Fault {
    fn chunk(self) -> &'static Name {
        match self {
            Without(name) | More(name) | Put(name, _, _) => name,
        }
    }

    fn make(self, draft: &mut Draft) {
        match self {
            Without(name) => drop(draft.chunks.remove(draft.index(name))),
            More(name) => draft.chunk(name).data.push(0),
            Put(name, offset, bytes) => draft.put(name, offset, bytes),
        }
    }

    fn is_of_an_envelope(self) -> bool {
        self.chunk().ends_with(b"ENV")
    }
}

impl CaseBuilder {
    /// Two chunks with one fault each: the first chunk decides, whatever its number.
    pub(super) fn walk_pairs(&mut self) {
        let info = |length, tracks| Chunk {
            name: *b"INFO",
            data: [&[0; 8][..], &[0, tracks]].concat(),
            stored_length: Some(length),
        };
        let empty_envelopes = Chunk::new(b"VENV", vec![0, 0]);
        let far = Chunk {
            name: *b"XYZW",
            data: vec![],
            stored_length: Some(0xFFFFFF00),
        };
        let faulty: [Vec<Chunk>; 8] = [
            vec![Chunk::new(b"XyZW", vec![])],
            vec![far],
            vec![empty_envelopes.clone(), empty_envelopes],
            vec![Chunk::new(b"SONG", vec![])],
            vec![Chunk::new(b"NAME", vec![0; 2])],
            vec![info(8, 4)],
            vec![info(10, 5)],
            vec![info(10, 4), info(10, 4)],
        ];
        for first in &faulty {
            for second in &faulty {
                self.draft(&Tune::default(), |draft| {
                    let both = first.iter().chain(second).cloned();
                    draft.chunks.splice(0..0, both);
                });
            }
            // After the mandatory chunks, and before a cut header.
            self.draft(&Tune::default(), |draft| {
                draft.chunks.extend(first.iter().cloned());
                draft.tail = b"XY".to_vec();
            });
            // With a chunk missing, and with an invalid header.
            self.draft(&Tune::default(), |draft| {
                draft.chunks.pop();
                draft.chunks.splice(0..0, first.iter().cloned());
            });
            self.draft(&Tune::default(), |draft| {
                draft.chunks.splice(0..0, first.iter().cloned());
                draft.header[5] = 0x0A;
            });
        }
    }

    /// Two faults in one chunk, or in the header: the order of the checks decides.
    pub(super) fn same_chunk_pairs(&mut self) {
        let smallest = Tune::default();
        let past = |name: &Name| Chunk {
            name: *name,
            data: vec![1],
            stored_length: Some(2),
        };
        // Letters and version; and a short header with other letters.
        self.draft(&smallest, |draft| {
            draft.header[3..5].copy_from_slice(b"1\x04")
        });
        self.draft(&smallest, |draft| draft.header = b"XBM0\x07".to_vec());
        // A second chunk whose data runs past the end; one whose letters are invalid too; and one before INFO.
        for name in [
            b"NAME", b"INFO", b"SONG", b"INST", b"PATT", b"SMPL", b"vENV",
        ] {
            self.draft(&smallest, |draft| draft.chunks.push(past(name)));
            self.draft(&smallest, |draft| draft.chunks = vec![past(name)]);
        }
        // A second NAME or INFO of a wrong length, and a second INFO with a wrong number.
        for length in [9, 10, 11] {
            self.draft(&smallest, |draft| {
                draft.chunks.push(Chunk::new(b"INFO", vec![0xFF; length]))
            });
            self.draft(&smallest, |draft| {
                draft.chunks.push(Chunk::new(b"NAME", vec![0; 44]));
                draft.chunks.push(Chunk::new(b"NAME", vec![0; length]));
            });
            // A first INFO of a wrong length and with wrong numbers.
            self.draft(&smallest, |draft| {
                draft.chunks[0] = Chunk::new(b"INFO", vec![0xFF; length]);
            });
        }
        // No INFO: the first of the four is before it, else a chunk is missing.
        for kept in [b"SONG", b"INST", b"PATT", b"SMPL"] {
            self.draft(&smallest, |draft| {
                draft.chunks.retain(|chunk| chunk.name == *kept);
                draft.tail = vec![1; 5];
            });
        }
    }

    /// Two faults that are checked after all chunks are known: all consecutive pairs, and many others.
    pub(super) fn late_pairs(&mut self) {
        for (second, &other) in LATE.iter().enumerate() {
            for (first, &one) in LATE[..second].iter().enumerate() {
                // Modules with envelopes are large, so fewer of them are used.
                let envelopes = one.is_of_an_envelope() || other.is_of_an_envelope();
                let one_in = if envelopes { 17 } else { 2 };
                if second == first + 1 {
                    self.late_faults(&[one, other], false);
                    if one.chunk() != other.chunk() {
                        self.late_faults(&[one, other], true);
                    }
                } else if (5 * first + 3 * second) % one_in == 0 {
                    self.late_faults(&[one, other], (first + second) % 3 != 0);
                }
            }
        }
        // From every second fault on, all that follow.
        for first in (0..LATE.len()).step_by(2) {
            self.late_faults(&LATE[first..], true);
        }
    }

    /// The small module with these faults, and with the envelopes that they need.
    fn late_faults(&mut self, faults: &[Fault], reversed: bool) {
        let concerned = |name: &Name| faults.iter().any(|fault| fault.chunk() == name);
        let mut tune = rich();
        tune.volume_envelopes = tune.volume_envelopes.filter(|_| concerned(b"VENV"));
        tune.panning_envelopes = tune.panning_envelopes.filter(|_| concerned(b"PENV"));
        let mut draft = tune.draft();
        // In reverse order, because the first fault may remove a chunk.
        for fault in faults.iter().rev() {
            fault.make(&mut draft);
        }
        if reversed {
            draft = draft.ordered(&REVERSED);
        }
        self.module(&draft.bytes());
    }
}
