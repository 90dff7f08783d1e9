//! The words for each difference between two modules: what differs, and its value in the first module, A, and in the second, B.
//!
//! The list of differences and the records come from the library. This code finds the values. If it finds none for an entry of the list,
//! or none that differ, the entry has no words.

use crate::cell_text::{CellText, FIELDS};
use crate::fields::{put_record, Fields, SampleFrames};
use crate::library::{
    Refusal, DIFFERENCE_INFO, DIFFERENCE_INSTRUMENT, DIFFERENCE_NAME, DIFFERENCE_PANNING_ENVELOPE,
    DIFFERENCE_PATTERN, DIFFERENCE_SAMPLE, DIFFERENCE_SONG, DIFFERENCE_VOLUME_ENVELOPE,
};
use crate::names::Quoted;
use crate::reader::{self, Block, Name};
use crate::records::{Envelope, Instrument, Report, Song};
use crate::rows::Rows;
use crate::text::put;
use crate::words::{counts, PatternSize};

/// An entry of the list: kind, number, row, track and field. The last three are 0, except for a field of a cell.
pub type Difference = [u16; 5];

/// The names of the fields of a cell.
const FIELD_NAMES: [&str; FIELDS] = [
    "note",
    "instrument",
    "command 1",
    "parameter 1",
    "command 2",
    "parameter 2",
];

/// What is shown of a module.
pub struct Shown<'m> {
    report: Report<'m>,
    /// The frames of each sample.
    frames: Vec<&'m [u8]>,
    rows: Rows<'m>,
}

impl<'m> Shown<'m> {
    /// None if the records are not as expected, or are not those of the module.
    pub fn of(module: &'m [u8], records: &'m [u8]) -> Option<Shown<'m>> {
        let report = Report::of(records)?;
        let frames = parts(module, b"SMPL", Block::frames)?;
        let streams = parts(module, b"PATT", Block::packed_rows)?;
        let fits = (frames.len(), streams.len()) == (report.samples.len(), report.patterns.len());
        fits.then(|| Shown {
            frames,
            rows: Rows::new(streams, report.info.tracks),
            report,
        })
    }

    fn song(&self, number: usize) -> Option<&Song<'m>> {
        self.report.songs.get(number)
    }

    fn instrument(&self, number: usize) -> Option<&Instrument> {
        self.report.instruments.get(number.checked_sub(1)?)
    }

    fn volume_envelope(&self, number: usize) -> Option<&Envelope<'m>> {
        self.report.volume_envelopes.get(number)
    }

    fn panning_envelope(&self, number: usize) -> Option<&Envelope<'m>> {
        self.report.panning_envelopes.get(number)
    }

    fn sample(&self, number: usize) -> Option<SampleFrames<'_>> {
        let index = number.checked_sub(1)?;
        Some(SampleFrames {
            sample: self.report.samples.get(index)?,
            frames: self.frames.get(index)?,
        })
    }

    fn pattern(&self, number: usize) -> Option<PatternSize> {
        Some(PatternSize {
            rows: *self.report.patterns.get(number)?,
            tracks: self.report.info.tracks,
        })
    }
}

/// A part of each block in the chunk with this name.
fn parts<'m>(
    module: &'m [u8],
    name: &Name,
    part: fn(&Block<'m>) -> Option<&'m [u8]>,
) -> Option<Vec<&'m [u8]>> {
    reader::blocks_of(module, name)?
        .map(|block| part(&block))
        .collect()
}

/// Writes the line of each difference.
pub struct LineWriter<'m> {
    modules: [Shown<'m>; 2],
    cell_text: CellText,
}

impl<'m> LineWriter<'m> {
    pub fn new(modules: [Shown<'m>; 2]) -> Result<LineWriter<'m>, Refusal> {
        Ok(LineWriter {
            modules,
            cell_text: CellText::new()?,
        })
    }

    /// Appends the line of a difference. None if it has no words.
    pub fn put_line(&mut self, text: &mut String, difference: Difference) -> Option<()> {
        match difference {
            [kind, number, 0, 0, 0] => self.put_whole(text, kind, usize::from(number))?,
            [DIFFERENCE_PATTERN, pattern, row, track, field] => {
                self.put_field(text, pattern, row, track, field)?;
            }
            _ => return None,
        }
        put!(text; "\n");
        Some(())
    }

    /// A difference that is not about a cell.
    fn put_whole(&self, text: &mut String, kind: u16, number: usize) -> Option<()> {
        let modules = self.modules.each_ref();
        match kind {
            DIFFERENCE_NAME if number == 0 => self.put_name(text),
            DIFFERENCE_INFO => self.put_info(text, number),
            DIFFERENCE_SONG => put_record(text, "song", number, modules.map(|it| it.song(number))),
            DIFFERENCE_INSTRUMENT => {
                let instruments = modules.map(|it| it.instrument(number));
                put_record(text, "instrument", number, instruments)
            }
            DIFFERENCE_VOLUME_ENVELOPE => {
                let envelopes = modules.map(|it| it.volume_envelope(number));
                put_record(text, "volume envelope", number, envelopes)
            }
            DIFFERENCE_PANNING_ENVELOPE => {
                let envelopes = modules.map(|it| it.panning_envelope(number));
                put_record(text, "panning envelope", number, envelopes)
            }
            DIFFERENCE_SAMPLE => {
                put_record(text, "sample", number, modules.map(|it| it.sample(number)))
            }
            DIFFERENCE_PATTERN => put_record(
                text,
                "pattern",
                number,
                modules.map(|it| it.pattern(number)),
            ),
            _ => None,
        }
    }

    /// `name: "Morning", "Evening"`.
    fn put_name(&self, text: &mut String) -> Option<()> {
        let [one, other] = self.modules.each_ref().map(|it| Quoted(it.report.name));
        put!(text; "name");
        let mut fields = Fields::new(text);
        fields.put("", one, other);
        fields.any()
    }

    /// `INFO samples: 3, 4`.
    fn put_info(&self, text: &mut String, number: usize) -> Option<()> {
        let [one, other] = self.modules.each_ref().map(|it| counts(&it.report.info));
        let (name, count) = *one.get(number)?;
        put!(text; "INFO ", name);
        let mut fields = Fields::new(text);
        fields.put("", count, other.get(number)?.1);
        fields.any()
    }

    /// `pattern 1 row 5 track 2 note: C-3, D-3`.
    fn put_field(
        &mut self,
        text: &mut String,
        pattern: u16,
        row: u16,
        track: u16,
        field: u16,
    ) -> Option<()> {
        let field_index = usize::from(field).checked_sub(1)?;
        let name = *FIELD_NAMES.get(field_index)?;
        let at = FIELDS * usize::from(track).checked_sub(1)? + field_index;
        let [one, other] = self.modules.each_mut().map(|it| {
            let cells = it.rows.cells(usize::from(pattern), usize::from(row))?;
            cells.get(at).copied()
        });
        let (one, other) = (one?, other?);
        put!(text; "pattern ", pattern, " row ", row, " track ", track, " ", name, ": ");
        self.cell_text.push_field(text, field_index, one);
        put!(text; ", ");
        self.cell_text.push_field(text, field_index, other);
        (one != other).then_some(())
    }
}

#[cfg(test)]
mod tests {
    use std::collections::BTreeSet;

    use super::{Difference, LineWriter, Shown};
    use crate::library::DIFFERENCE_PATTERN;
    use reference::all_records::write;
    use reference::compare::differences;
    use reference::draft::{Pattern, Sample, Tune};
    use reference::generate::Random;
    use reference::pairs::{pair, Relation};

    fn records(module: &[u8]) -> Vec<u8> {
        let mut records = vec![0; module.len() + 60];
        let length = write(module, &mut records).expect("an accepted module") as usize;
        records.truncate(length);
        records
    }

    /// All entries that are about something that can be in a small module, and some that are not.
    fn entries() -> Vec<Difference> {
        let mut entries = Vec::new();
        for number in 0..6 {
            entries.extend((0..10).map(|kind| [kind, number, 0, 0, 0]));
            entries.extend((0..10).map(|kind| [kind, number, 1, 0, 0]));
            entries.extend((0..8).map(|kind| [kind, number, 0, 1, 1]));
            for row in 0..6 {
                for track in 0..10 {
                    let fields = 1..8;
                    entries.extend(
                        fields.map(|field| [DIFFERENCE_PATTERN, number, row, track, field]),
                    );
                }
            }
        }
        entries
    }

    /// An entry has words exactly if it is in the list of the second program. The cells of patterns of unequal size are not compared.
    #[test]
    fn words_for_every_difference_and_nothing_else() {
        let mut count = 0;
        for seed in 1..=200 {
            for relation in [Relation::SomeChanges, Relation::Unrelated] {
                let (first, second) = pair(&mut Random::new(seed), relation);
                let list: BTreeSet<Difference> = differences(&first, &second).expect("accepted");
                let of_both = [records(&first), records(&second)];
                let shown = [
                    Shown::of(&first, &of_both[0]).expect("its records"),
                    Shown::of(&second, &of_both[1]).expect("its records"),
                ];
                let mut lines = LineWriter::new(shown).expect("the notes are known");
                for entry in entries() {
                    let [kind, number, .., field] = entry;
                    let whole = [kind, number, 0, 0, 0];
                    if kind == DIFFERENCE_PATTERN && field != 0 && list.contains(&whole) {
                        continue;
                    }
                    let mut text = String::new();
                    let found = lines.put_line(&mut text, entry).is_some();
                    assert_eq!(
                        found,
                        list.contains(&entry),
                        "seed {seed}, {entry:?}: {text}"
                    );
                    assert!(!found || text.ends_with('\n') && text.lines().count() == 1);
                    count += u32::from(found);
                }
            }
        }
        assert!(count > 2_000, "{count} lines");
    }

    /// Records of another module, or cut records, are not accepted.
    #[test]
    fn other_records() {
        let modules = [
            Tune::default(),
            Tune {
                samples: vec![Sample::new(1, &[])],
                ..Tune::default()
            },
            Tune {
                patterns: vec![Pattern::default()],
                ..Tune::default()
            },
        ];
        let modules = modules.map(|tune| tune.bytes());
        for module in &modules {
            let own = records(module);
            assert!(Shown::of(module, &own).is_some());
            assert!(Shown::of(module, &own[1..]).is_none());
            for other in modules.iter().filter(|other| *other != module) {
                assert!(Shown::of(other, &own).is_none());
            }
        }
    }
}
