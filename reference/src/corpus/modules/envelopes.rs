//! Cases for envelopes.

use super::CaseBuilder;
use crate::chunks::Name;
use crate::draft::{Envelope, Instrument, Tune};

/// A module of one instrument and some envelopes of one kind.
pub(super) fn enveloped(version: u8, kind: &Name, envelopes: &[Envelope]) -> Tune {
    let envelopes = |name: &Name| (name == kind).then(|| envelopes.to_vec());
    Tune {
        version,
        instruments: vec![Instrument::default()],
        volume_envelopes: envelopes(b"VENV"),
        panning_envelopes: envelopes(b"PENV"),
        ..Tune::default()
    }
}

/// An envelope for instrument 1 with four points in use and no flags.
pub(super) fn plain_envelope() -> Envelope {
    Envelope {
        instrument: 1,
        sections: 3,
        points: vec![(0, 64), (5, 32), (8, 1), (9, 0)],
        ..Envelope::default()
    }
}

/// Sets S1, L1, L2 or S2.
fn set_point(envelope: &mut Envelope, index: usize, value: u8) {
    let points = [
        &mut envelope.first_sustain,
        &mut envelope.loop_first,
        &mut envelope.loop_last,
        &mut envelope.second_sustain,
    ];
    *points[index] = value;
}

impl CaseBuilder {
    /// A case of a plain envelope with a change.
    fn envelope(&mut self, kind: &Name, change: impl FnOnce(&mut Envelope)) {
        let mut envelope = plain_envelope();
        change(&mut envelope);
        self.module(&enveloped(3, kind, &[envelope]).bytes());
    }

    pub(super) fn envelopes(&mut self) {
        for kind in [b"VENV", b"PENV"] {
            self.named_points(kind);
            self.envelope_fields(kind);
            self.points_in_use(kind);
            self.several_envelopes(kind);
        }
    }

    /// S1, L1, L2 and S2 in range and out of range, with their bit set and with all others set; and L1 greater than L2.
    fn named_points(&mut self, kind: &Name) {
        for (index, bit) in [1, 2, 2, 3].into_iter().enumerate() {
            for (value, flags) in [
                (3, 1 << bit),
                (4, 1 << bit),
                (0xFF, 0x0F),
                (4, 0x0F & !(1 << bit)),
            ] {
                self.envelope(kind, |envelope| {
                    envelope.loop_last = 3;
                    envelope.flags = flags;
                    set_point(envelope, index, value);
                });
            }
        }
        for (first, last, flags) in [
            (3, 3, 0x04),
            (1, 0, 0x04),
            (1, 0, 0x0B),
            (3, 2, 0x05),
            (4, 4, 0x04),
            (4, 3, 0x04),
            (3, 4, 0x04),
            (5, 4, 0x0B),
        ] {
            self.envelope(kind, |envelope| {
                envelope.flags = flags;
                envelope.loop_first = first;
                envelope.loop_last = last;
            });
        }
    }

    /// Instrument, flags and sections.
    fn envelope_fields(&mut self, kind: &Name) {
        for instrument in [0, 2, 0x0101, 0xFFFF] {
            self.envelope(kind, |envelope| envelope.instrument = instrument);
        }
        for flags in [0x01, 0x0F, 0x10, 0x80, 0xF1] {
            self.envelope(kind, |envelope| envelope.flags = flags);
        }
        for sections in [0, 31, 32, 0xFF] {
            self.envelope(kind, |envelope| envelope.sections = sections);
        }
        // The envelope's instrument is one more than the number of instruments, and the last.
        let mut tune = enveloped(3, kind, &[plain_envelope()]);
        tune.instruments.clear();
        self.module(&tune.bytes());
        let mut last = plain_envelope();
        last.instrument = 3;
        let mut tune = enveloped(3, kind, &[last]);
        tune.instruments = vec![Instrument::default(); 3];
        self.module(&tune.bytes());
    }

    /// A fault in the last point in use, and one in the next point; also if the envelope is off, and in positions.
    fn points_in_use(&mut self, kind: &Name) {
        for sections in [0, 1, 30, 31] {
            for past in [0, 1] {
                let wrong = usize::from(sections + past);
                if wrong < 32 {
                    self.envelope(kind, |envelope| {
                        envelope.flags = sections % 2;
                        envelope.sections = sections;
                        envelope.points = vec![(0xFFFF, 1); 32];
                        envelope.points[wrong].1 = 0x4000;
                    });
                }
            }
        }
        self.envelope(kind, |envelope| {
            envelope.points = (0..32).map(|index| (0x8000 | index, 64)).collect();
        });
        self.envelope(kind, |envelope| {
            envelope.sections = 31;
            envelope.points = vec![(65, 64); 32];
        });
    }

    /// Two envelopes, the second or both invalid. Two envelopes for one instrument are allowed.
    fn several_envelopes(&mut self, kind: &Name) {
        for wrong in 0..4 {
            let mut first = plain_envelope();
            let mut second = plain_envelope();
            second.instrument = if wrong == 2 { 2 } else { 1 };
            second.flags = if wrong == 1 { 0x40 } else { 0x01 };
            first.points[3].1 = if wrong == 3 { 0x0100 } else { 0 };
            self.module(&enveloped(3, kind, &[first, second]).bytes());
        }
    }

    /// Values of both kinds in both versions. Volumes are the same in both. In version 2 panning values are 0 to 64.
    pub(super) fn values(&mut self) {
        let old = [0, 32, 64, 65, 128, 256, -1, -128, -32768];
        let new = [
            65, 127, 128, 129, 255, 256, 32767, -1, -127, -128, -129, -256, -32768,
        ];
        self.some_values(2, b"PENV", &old);
        self.some_values(3, b"PENV", &new);
        self.some_values(2, b"VENV", &[65, -1, -128, 320]);
        self.some_values(3, b"VENV", &[0, 64, 65, 128, -1, 0x4000]);
    }

    fn some_values(&mut self, version: u8, kind: &Name, values: &[i16]) {
        for (index, &value) in values.iter().enumerate() {
            let mut envelope = plain_envelope();
            envelope.points[index % 4].1 = value;
            self.module(&enveloped(version, kind, &[envelope]).bytes());
        }
    }
}
