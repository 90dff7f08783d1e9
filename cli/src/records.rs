//! The contents of a report, parsed from the records that the library writes (Q16 of docs/FORMAT.md).

use crate::library::Info;

/// The number of points of an envelope, used or not.
const POINTS: usize = 32;

/// The bytes of an envelope: 8, and 4 for each point.
const ENVELOPE_BYTES: usize = 8 + 4 * POINTS;

#[derive(Debug, PartialEq, Eq)]
pub struct Report<'r> {
    pub version: u8,
    pub revision: u8,
    pub name: &'r [u8; 44],
    pub info: Info,
    pub songs: Vec<Song<'r>>,
    pub instruments: Vec<Instrument>,
    /// The rows of each pattern.
    pub patterns: Vec<u16>,
    pub samples: Vec<Sample>,
    pub volume_envelopes: Vec<Envelope<'r>>,
    pub panning_envelopes: Vec<Envelope<'r>>,
}

#[derive(Debug, PartialEq, Eq)]
pub struct Song<'r> {
    pub name: &'r [u8; 44],
    /// The entries, two bytes each.
    playlist: &'r [[u8; 2]],
}

#[derive(Debug, PartialEq, Eq)]
pub struct Instrument {
    pub name: [u8; 30],
    pub sample: u16,
    pub volume: u16,
    pub rate: u32,
    pub loop_start: u32,
    pub loop_length: u32,
    pub panning: i16,
    pub flags: u16,
}

#[derive(Debug, PartialEq, Eq)]
pub struct Sample {
    /// The bits of a frame.
    pub width: u16,
    pub frames: u32,
}

#[derive(Debug, PartialEq, Eq)]
pub struct Envelope<'r> {
    pub instrument: u16,
    pub flags: u8,
    pub sections: u8,
    pub first_sustain: u8,
    pub loop_first: u8,
    pub loop_last: u8,
    pub second_sustain: u8,
    /// The position and the value of each point, two bytes each.
    points: &'r [[u8; 4]],
}

/// The kind of an instrument's loop.
#[derive(Clone, Copy, PartialEq, Eq)]
pub enum Loop {
    None,
    Forward,
    PingPong,
}

/// The bits of an envelope's flags.
pub const ON: u8 = 0;
pub const FIRST_SUSTAIN: u8 = 1;
pub const LOOP: u8 = 2;
pub const SECOND_SUSTAIN: u8 = 3;

impl<'r> Report<'r> {
    /// Parses the records. None if they end too early or too late, which the library never does.
    pub fn of(records: &'r [u8]) -> Option<Report<'r>> {
        let reader = &mut RecordReader(records);
        let (mut report, [volume, panning]) = Report::front(reader)?;
        report.volume_envelopes = reader.list(volume, Envelope::read)?;
        report.panning_envelopes = reader.list(panning, Envelope::read)?;
        reader.0.is_empty().then_some(report)
    }

    /// The same, but only the length of the envelopes is compared, and the report has none.
    pub fn without_envelopes(records: &'r [u8]) -> Option<Report<'r>> {
        let reader = &mut RecordReader(records);
        let (report, [volume, panning]) = Report::front(reader)?;
        let envelopes = usize::from(volume) + usize::from(panning);
        (reader.0.len() == envelopes * ENVELOPE_BYTES).then_some(report)
    }

    /// Parses the records before the envelopes. Also returns how many volume and how many panning envelopes follow.
    fn front(reader: &mut RecordReader<'r>) -> Option<(Report<'r>, [u16; 2])> {
        let [version, revision] = *reader.array()?;
        let name = reader.array()?;
        let info = Info {
            instruments: reader.u16()?,
            samples: reader.u16()?,
            songs: reader.u16()?,
            patterns: reader.u16()?,
            tracks: reader.u16()?,
        };
        let envelopes = [reader.u16()?, reader.u16()?];
        let report = Report {
            version,
            revision,
            name,
            info,
            songs: reader.list(info.songs, Song::read)?,
            instruments: reader.list(info.instruments, Instrument::read)?,
            patterns: reader.list(info.patterns, RecordReader::u16)?,
            samples: reader.list(info.samples, Sample::read)?,
            volume_envelopes: Vec::new(),
            panning_envelopes: Vec::new(),
        };
        Some((report, envelopes))
    }
}

impl<'r> Song<'r> {
    fn read(reader: &mut RecordReader<'r>) -> Option<Song<'r>> {
        let name = reader.array()?;
        let entries = reader.u16()?;
        Some(Song {
            name,
            playlist: reader.arrays(usize::from(entries))?,
        })
    }

    pub fn length(&self) -> usize {
        self.playlist.len()
    }

    /// The pattern of each entry.
    pub fn playlist(&self) -> impl Iterator<Item = u16> + 'r {
        self.playlist.iter().copied().map(u16::from_be_bytes)
    }
}

impl Instrument {
    fn read(reader: &mut RecordReader) -> Option<Instrument> {
        Some(Instrument {
            name: *reader.array()?,
            sample: reader.u16()?,
            volume: reader.u16()?,
            rate: reader.u32()?,
            loop_start: reader.u32()?,
            loop_length: reader.u32()?,
            panning: reader.array().copied().map(i16::from_be_bytes)?,
            flags: reader.u16()?,
        })
    }

    /// A loop without a length is none. If both kinds are set, it is forward.
    pub fn loop_kind(&self) -> Loop {
        match (self.loop_length, self.flags & 3) {
            (0, _) | (_, 0) => Loop::None,
            (_, 2) => Loop::PingPong,
            _ => Loop::Forward,
        }
    }
}

impl Sample {
    fn read(reader: &mut RecordReader) -> Option<Sample> {
        Some(Sample {
            width: reader.u16()?,
            frames: reader.u32()?,
        })
    }

    /// The length of all frames in bytes.
    pub fn length(&self) -> u64 {
        u64::from(self.frames) * u64::from(self.width / 8)
    }
}

impl<'r> Envelope<'r> {
    fn read(reader: &mut RecordReader<'r>) -> Option<Envelope<'r>> {
        let instrument = reader.u16()?;
        let [flags, sections, first_sustain, loop_first, loop_last, second_sustain] =
            *reader.array()?;
        Some(Envelope {
            instrument,
            flags,
            sections,
            first_sustain,
            loop_first,
            loop_last,
            second_sustain,
            points: reader.arrays(POINTS)?,
        })
    }

    /// Whether a bit of the flags is set.
    pub fn has(&self, bit: u8) -> bool {
        self.flags >> bit & 1 == 1
    }

    /// The points in use, `sections + 1` of them: position and value.
    pub fn points(&self) -> impl Iterator<Item = (u16, i16)> + 'r {
        let in_use = self.points.iter().take(usize::from(self.sections) + 1);
        in_use.map(|&[a, b, c, d]| (u16::from_be_bytes([a, b]), i16::from_be_bytes([c, d])))
    }
}

/// The part of the records that is not read yet. Each function takes a value from the beginning. It returns None if too few bytes are left.
struct RecordReader<'r>(&'r [u8]);

impl<'r> RecordReader<'r> {
    fn array<const LENGTH: usize>(&mut self) -> Option<&'r [u8; LENGTH]> {
        let (taken, rest) = self.0.split_first_chunk()?;
        self.0 = rest;
        Some(taken)
    }

    /// An array of `count` arrays.
    fn arrays<const LENGTH: usize>(&mut self, count: usize) -> Option<&'r [[u8; LENGTH]]> {
        let (taken, rest) = self.0.split_at_checked(count * LENGTH)?;
        self.0 = rest;
        Some(taken.as_chunks().0)
    }

    /// A number of two bytes.
    fn u16(&mut self) -> Option<u16> {
        self.array().copied().map(u16::from_be_bytes)
    }

    /// A number of four bytes.
    fn u32(&mut self) -> Option<u32> {
        self.array().copied().map(u32::from_be_bytes)
    }

    /// A list of `count` records.
    fn list<Record>(
        &mut self,
        count: u16,
        read: impl Fn(&mut RecordReader<'r>) -> Option<Record>,
    ) -> Option<Vec<Record>> {
        (0..count).map(|_| read(self)).collect()
    }
}

#[cfg(test)]
mod tests {
    use super::Report;
    use reference::all_records::write;
    use reference::generate::{module, Limits, Random};

    /// Whether the records are parsed, which does not depend on whether the envelopes are.
    fn is_whole(records: &[u8]) -> bool {
        let parsed = Report::of(records).is_some();
        assert_eq!(Report::without_envelopes(records).is_some(), parsed);
        parsed
    }

    /// Records that are cut, or have an extra byte, are not parsed.
    #[test]
    fn only_whole_records() {
        for seed in 1..=100 {
            let module = module(&mut Random::new(seed), &Limits::SMALL).bytes();
            let mut records = vec![0; module.len() + 60];
            let length = write(&module, &mut records).expect("an accepted module") as usize;
            assert!(is_whole(&records[..length]));
            for cut in 0..length {
                assert!(!is_whole(&records[..cut]), "{cut} of {length}");
            }
            records.truncate(length);
            records.push(0);
            assert!(!is_whole(&records));
        }
    }
}
