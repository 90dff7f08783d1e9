//! Tests of the comparison of all records: it finds no difference between the reference and itself, and it detects each of these wrong
//! libraries.

use archive::all_records::RECORDS;
use archive::compare::GuardedOutput;
use reference::module::read;

archive::tests_of_the_comparison!(RECORDS);

/// The places in the output at which the records of each kind begin: songs, instruments, patterns, samples, volume envelopes, panning
/// envelopes, and the end.
fn begins(module: &[u8]) -> [usize; 7] {
    let read = read(module).expect("an accepted module");
    let songs: usize = read
        .songs
        .iter()
        .map(|song| 46 + song.playlist.bytes.len())
        .sum();
    let mut places = [60; 7];
    let lengths = [
        songs,
        50 * read.instruments.len(),
        2 * read.patterns.len(),
        6 * read.samples.len(),
        136 * read.volume_envelopes.len(),
        136 * read.panning_envelopes.len(),
    ];
    for (kind, length) in lengths.into_iter().enumerate() {
        places[kind + 1] = places[kind] + length;
    }
    places
}

/// Only the summary is written.
#[test]
fn the_summary_alone() {
    RECORDS.notices(&|module, output| {
        let mut whole = GuardedOutput::new(output.slice().len());
        let answer = (RECORDS.reference)(module, &mut whole);
        if answer.number == 0 {
            output.slice()[..60].copy_from_slice(&whole.slice()[..60]);
        }
        answer
    });
}

/// The last byte of the records of each kind is changed in turn.
#[test]
fn a_byte_of_each_kind() {
    RECORDS.notices(&RECORDS.changed(|_, out| out[0] ^= 1));
    RECORDS.notices(&RECORDS.changed(|_, out| out[45] ^= 1));
    RECORDS.notices(&RECORDS.changed(|_, out| out[59] ^= 1));
    for kind in 0..6 {
        RECORDS.notices(&RECORDS.changed(|module, out| {
            let begins = begins(module);
            if begins[kind] < begins[kind + 1] {
                out[begins[kind + 1] - 1] ^= 1;
            }
        }));
    }
}

/// Envelopes as they are stored: unused points are not cleared, and the values of version 2 are not scaled.
#[test]
fn envelopes_as_stored() {
    fn stored(module: &[u8], out: &mut [u8], in_use: bool) {
        let read = read(module).expect("an accepted module");
        let mut place = begins(module)[4] + 8;
        for envelope in read.volume_envelopes.iter().chain(&read.panning_envelopes) {
            let used = 4 * (envelope.sections.value as usize + 1);
            let range = if in_use { 0..used } else { used..128 };
            let points = &mut out[place..place + 128];
            points[range.clone()].copy_from_slice(&envelope.points.bytes[range]);
            place += 136;
        }
    }
    RECORDS.notices(&RECORDS.changed(|module, out| stored(module, out, true)));
    RECORDS.notices(&RECORDS.changed(|module, out| stored(module, out, false)));
}

/// The panning envelopes before the volume envelopes, and the patterns before the instruments.
#[test]
fn another_order_of_records() {
    RECORDS.notices(&RECORDS.changed(|module, out| {
        let [.., volume, panning, end] = begins(module);
        out[volume..end].rotate_left(panning - volume);
    }));
    RECORDS.notices(&RECORDS.changed(|module, out| {
        let [_, instruments, patterns, samples, ..] = begins(module);
        out[instruments..samples].rotate_left(patterns - instruments);
    }));
}

/// The bytes of a frame instead of its bits.
#[test]
fn bytes_of_a_frame() {
    RECORDS.notices(&RECORDS.changed(|module, out| {
        let [_, _, _, samples, end, ..] = begins(module);
        for sample in out[samples..end].chunks_mut(6) {
            sample[1] /= 8;
        }
    }));
}
