//! The rules of fields, loops and packed streams: refusals 12 to 15.
//!
//! Every rule that does not hold yields its refusal, in the order of the checks. The first one is the refusal of the module.

use crate::blocks::{Envelope, Instrument, Pattern, Song};
use crate::module::Module;
use crate::part::Field;
use crate::pattern;
use crate::refusal::{broken_pattern, loop_outside, wrong_field, wrong_reference, Refusal};

/// The refusals of all rules that a module with valid blocks breaks.
pub fn broken<'m>(module: &'m Module) -> impl Iterator<Item = Refusal> + 'm {
    fields(module).chain(loops(module)).chain(streams(module))
}

/// 12 and 13, field by field: SONG, INST, VENV, PENV. PATT and SMPL have no field that can be invalid.
fn fields<'m>(module: &'m Module) -> impl Iterator<Item = Refusal> + 'm {
    let info = module.info;
    let scaled = module.header.version == 2;
    let songs = module
        .songs
        .iter()
        .flat_map(move |song| of_song(song, info.patterns));
    let instruments = module
        .instruments
        .iter()
        .flat_map(move |instrument| of_instrument(instrument, info.samples));
    let volumes = module
        .volume_envelopes
        .iter()
        .flat_map(move |envelope| of_envelope(envelope, info.instruments, is_volume));
    let pannings = module.panning_envelopes.iter().flat_map(move |envelope| {
        let allowed = if scaled { is_volume } else { is_panning };
        of_envelope(envelope, info.instruments, allowed)
    });
    songs.chain(instruments).chain(volumes).chain(pannings)
}

/// The refusal of a rule, if the rule does not hold.
fn unless(holds: bool, refusal: Refusal) -> Option<Refusal> {
    if holds {
        None
    } else {
        Some(refusal)
    }
}

/// 0 to 64: every volume, and the values of panning envelopes in version 2.
fn is_volume(field: Field) -> bool {
    field.value <= 64
}

/// -128 to 128.
fn is_panning(field: Field) -> bool {
    (-128..=128).contains(&field.signed())
}

fn of_song<'m>(song: &Song<'m>, patterns: u64) -> impl Iterator<Item = Refusal> + 'm {
    song.playlist
        .numbers()
        .filter(move |entry| entry.value >= patterns)
        .map(|entry| wrong_reference(entry.place))
}

fn of_instrument(instrument: &Instrument, samples: u64) -> impl Iterator<Item = Refusal> {
    let Instrument {
        sample,
        volume,
        panning,
        flags,
        ..
    } = *instrument;
    [
        unless(sample.value <= samples, wrong_reference(sample.place)),
        unless(is_volume(volume), wrong_field(volume.place)),
        unless(is_panning(panning), wrong_field(panning.place)),
        unless(flags.value <= 0b11, wrong_field(flags.place)),
    ]
    .into_iter()
    .flatten()
}

fn of_envelope<'m>(
    envelope: &Envelope<'m>,
    instruments: u64,
    allowed: fn(Field) -> bool,
) -> impl Iterator<Item = Refusal> + 'm {
    let Envelope {
        instrument,
        flags,
        sections,
        first_sustain,
        loop_first,
        loop_last,
        second_sustain,
        ..
    } = *envelope;
    let there = (1..=instruments).contains(&instrument.value);
    let in_use = |point: Field| point.value <= sections.value;
    let ascending = loop_first.value <= loop_last.value;
    let point =
        |bit, holds, field: Field| unless(!envelope.has(bit) || holds, wrong_field(field.place));
    let values = envelope
        .values_in_use()
        .filter(move |&value| !allowed(value))
        .map(|value| wrong_field(value.place));
    [
        unless(there, wrong_reference(instrument.place)),
        unless(flags.value <= 0b1111, wrong_field(flags.place)),
        unless(sections.value <= 31, wrong_field(sections.place)),
        point(1, in_use(first_sustain), first_sustain),
        point(2, in_use(loop_first), loop_first),
        point(2, in_use(loop_last) && ascending, loop_last),
        point(3, in_use(second_sustain), second_sustain),
    ]
    .into_iter()
    .flatten()
    .chain(values)
}

/// 14: an instrument with a loop has a sample, and the loop ends inside it.
fn loops<'m>(module: &'m Module) -> impl Iterator<Item = Refusal> + 'm {
    module
        .instruments
        .iter()
        .filter(|instrument| instrument.is_looped() && !loop_fits(module, instrument))
        .map(|instrument| loop_outside(instrument.place))
}

fn loop_fits(module: &Module, instrument: &Instrument) -> bool {
    let end = instrument.loop_start.value + instrument.loop_length.value;
    module
        .sample(instrument.sample.value)
        .is_some_and(|sample| end <= sample.frames)
}

/// 15: every pattern's stream is accepted with its rows and the module's tracks.
fn streams<'m>(module: &'m Module) -> impl Iterator<Item = Refusal> + 'm {
    let valid = |pattern: &&Pattern| {
        pattern::check(pattern.stream, pattern.rows, module.info.tracks).is_ok()
    };
    module
        .patterns
        .iter()
        .filter(move |pattern| !valid(pattern))
        .map(|pattern| broken_pattern(pattern.place))
}
