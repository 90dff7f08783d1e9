//! Writing all records of a module at once, tested by writing.rs.

use crate::compare::answer;
use crate::queries::{self, Queries};
use crate::writing::Call;
use interface::{Answer, Envelope};
use reference::all_records::write;
use reference::generate::Random;

/// libdbm0.a against the reference.
pub const RECORDS: Call<'static> = Call {
    name: "records",
    library: &|module, output| interface::records(module, output.slice()),
    queries: &queries::ARCHIVE,
    reference: &|module, output| answer(write(module, output.slice())),
    enough: &|length| length + 60,
    refusal: &queries::refusal,
    properties: &shown_one_by_one,
};

/// Each record equals the answer of its query.
fn shown_one_by_one(
    call: &Call,
    module: &[u8],
    _: Answer,
    written: &[u8],
    _: &mut Random,
) -> Result<(), String> {
    let expected = one_by_one(call.queries, module);
    if written == expected {
        return Ok(());
    }
    let same = written
        .iter()
        .zip(&expected)
        .take_while(|(is, expected)| is == expected);
    Err(format!(
        "{} bytes, not {}, other than the queries answer from {} on",
        written.len(),
        expected.len(),
        same.count()
    ))
}

/// The records of an accepted module, each from its own query.
fn one_by_one(queries: &Queries, module: &[u8]) -> Vec<u8> {
    let version = (queries.version)(module).record;
    let info = (queries.info)(module).record;
    let volume = (queries.volume_envelopes)(module).record;
    let panning = (queries.panning_envelopes)(module).record;
    let mut bytes = vec![version.version, version.revision];
    bytes.extend((queries.name)(module).record.0);
    let numbers = [
        info.instruments,
        info.samples,
        info.songs,
        info.patterns,
        info.tracks,
        volume,
        panning,
    ];
    bytes.extend(numbers.into_iter().flat_map(u16::to_be_bytes));
    for number in 0..usize::from(info.songs) {
        let song = (queries.song)(module, number).record;
        bytes.extend(song.name.0);
        bytes.extend(song.length.to_be_bytes());
        for entry in 0..usize::from(song.length) {
            bytes.extend((queries.entry)(module, number, entry).record.to_be_bytes());
        }
    }
    for number in 1..=usize::from(info.instruments) {
        let shown = (queries.instrument)(module, number).record;
        bytes.extend(shown.name);
        bytes.extend([shown.sample, shown.volume].map(u16::to_be_bytes).concat());
        bytes.extend(
            [shown.rate, shown.loop_start, shown.loop_length]
                .map(u32::to_be_bytes)
                .concat(),
        );
        bytes.extend(shown.panning.to_be_bytes());
        bytes.extend(shown.flags.to_be_bytes());
    }
    for number in 0..usize::from(info.patterns) {
        bytes.extend((queries.rows)(module, number).record.to_be_bytes());
    }
    for number in 1..=usize::from(info.samples) {
        let shown = (queries.sample)(module, number).record;
        bytes.extend(u16::from(shown.width).to_be_bytes());
        bytes.extend(shown.frames.to_be_bytes());
    }
    for number in 0..usize::from(volume) {
        push_envelope(
            &mut bytes,
            &(queries.volume_envelope)(module, number).record,
        );
    }
    for number in 0..usize::from(panning) {
        push_envelope(
            &mut bytes,
            &(queries.panning_envelope)(module, number).record,
        );
    }
    bytes
}

fn push_envelope(bytes: &mut Vec<u8>, shown: &Envelope) {
    bytes.extend(shown.instrument.to_be_bytes());
    bytes.extend([
        shown.flags,
        shown.sections,
        shown.first_sustain,
        shown.loop_first,
        shown.loop_last,
        shown.second_sustain,
    ]);
    for (position, value) in shown.positions.iter().zip(shown.values) {
        bytes.extend(position.to_be_bytes());
        bytes.extend(i16::try_from(value).expect("-128 to 128").to_be_bytes());
    }
}
