//! Cases for songs, instruments, patterns and samples.

use super::envelopes::{enveloped, plain_envelope};
use super::{small, with_upper_bits, CaseBuilder};
use crate::chunks::Name;
use crate::corpus::entry_of;
use crate::draft::{Instrument, Pattern, Sample, Song, Tune};

impl CaseBuilder {
    /// The data of SONG and INST cut around the ends of their fields, the data of PATT and SMPL cut at every byte, and all of them
    /// extended. The chunk's length is adjusted.
    pub(super) fn chunk_ends(&mut self) {
        let songs = Tune {
            songs: vec![
                Song {
                    name: b"first".to_vec(),
                    playlist: vec![0, 0],
                },
                Song::default(),
            ],
            patterns: vec![Pattern::default()],
            ..Tune::default()
        };
        let lengths = [
            0, 1, 44, 45, 46, 47, 48, 49, 50, 51, 93, 94, 95, 96, 97, 98, 142,
        ];
        self.with_lengths(b"SONG", &songs, lengths);
        let instruments = Tune {
            instruments: vec![Instrument::default()],
            ..Tune::default()
        };
        self.with_lengths(b"INST", &instruments, [0, 1, 30, 48, 49, 50, 51, 99, 100]);
        let patterns = Tune {
            patterns: vec![
                Pattern::new(1, &[2, 1, 0x47, 0]),
                Pattern::new(0, &[]),
                Pattern::new(3, &[0, 0, 0]),
            ],
            ..Tune::default()
        };
        self.with_lengths(b"PATT", &patterns, 0..=28);
        let samples = Tune {
            samples: vec![
                Sample::new(1, &[1, 2, 3]),
                Sample::new(4, &[4; 8]),
                Sample::new(2, &[5; 4]),
            ],
            ..Tune::default()
        };
        self.with_lengths(b"SMPL", &samples, 0..=41);
        for kind in [b"VENV", b"PENV"] {
            let tune = enveloped(3, kind, &[plain_envelope()]);
            self.with_lengths(kind, &tune, [0, 1, 2, 3, 137, 138, 139, 274]);
        }
    }

    /// A chunk's data cut to each of these lengths, or extended with zeros.
    fn with_lengths(&mut self, name: &Name, tune: &Tune, lengths: impl IntoIterator<Item = usize>) {
        for length in lengths {
            self.draft(tune, |draft| draft.chunk(name).data.resize(length, 0));
        }
    }

    /// Lengths in blocks that are far too large, including ones that would fit after an overflow.
    pub(super) fn wild_blocks(&mut self) {
        let small = small();
        let song = Tune {
            instruments: vec![],
            ..small.clone()
        };
        for length in [
            2, 3, 0x00FF, 0x0100, 0x7FFF, 0x8000, 0x8001, 0xFFE9, 0xFFEA, 0xFFFF_u16,
        ] {
            self.draft(&song, |draft| draft.put(b"SONG", 44, &length.to_be_bytes()));
        }
        let pattern = Tune {
            patterns: small.patterns,
            ..Tune::default()
        };
        // Six bytes and one of these, with or without a filler, are 2^32 or almost.
        let wild = [!0, !1, !3, !4, !5, !6, !7, 1 << 31, (1 << 31) - 1];
        for length in [0_u32, 2, 3, 0x0100, 0x10001].into_iter().chain(wild) {
            self.draft(&pattern, |draft| {
                draft.put(b"PATT", 2, &length.to_be_bytes())
            });
        }
        self.wild_frames();
        self.wild_envelope_counts();
    }

    /// Frames of different widths on data of different lengths.
    fn wild_frames(&mut self) {
        for (flags, data, frames) in [
            (1, 2, 0x01000002),
            (1, 2, 0x80000002),
            (1, 2, 0xFFFFFFF8),
            (1, 2, 0xFFFFFFFA),
            (1, 2, 0xFFFFFFFF),
            (2, 2, 0x80000001),
            (2, 0, 0x80000000),
            (2, 2, 0x7FFFFFFD),
            (2, 2, 0xFFFFFFFF),
            (4, 4, 0x40000001),
            (4, 0, 0x40000000),
            (4, 4, 0x80000001),
            (4, 8, 0xC0000002),
            (4, 0, 0x3FFFFFFE),
            (4, 4, 0xFFFFFFFF_u32),
        ] {
            let tune = Tune {
                samples: vec![Sample {
                    flags,
                    frames,
                    data: vec![0; data],
                }],
                ..Tune::default()
            };
            self.module(&tune.bytes());
        }
    }

    /// 136 × 8,192 is 17 × 65,536, so these counts would fit if a product wrapped at 16 bits.
    fn wild_envelope_counts(&mut self) {
        for kind in [b"VENV", b"PENV"] {
            let tune = enveloped(3, kind, &[plain_envelope()]);
            for count in [0, 2, 0x0101, 0x2001, 0xFFFF_u16] {
                self.draft(&tune, |draft| {
                    draft.put(kind, 0, &count.to_be_bytes());
                });
            }
            for count in [1, 0x2000, 0x4000, 0xFFFF_u16] {
                self.draft(&tune, |draft| {
                    draft.chunk(kind).data = count.to_be_bytes().to_vec();
                });
            }
        }
    }

    /// Playlists: entries around the number of patterns, in the first and the last song.
    pub(super) fn songs(&mut self) {
        let song = |playlist: &[u16]| Song {
            name: b"song".to_vec(),
            playlist: playlist.to_vec(),
        };
        let with = |patterns: usize, songs: &[&[u16]]| Tune {
            patterns: vec![Pattern::default(); patterns],
            songs: songs.iter().map(|playlist| song(playlist)).collect(),
            ..Tune::default()
        };
        let tunes = [
            with(0, &[&[]]),
            with(0, &[&[0]]),
            with(1, &[&[0]]),
            with(1, &[&[1]]),
            with(3, &[&[0, 1, 2, 2, 1]]),
            with(3, &[&[0, 1, 3]]),
            with(3, &[&[3, 4]]),
            with(3, &[&[0xFFFF]]),
            with(3, &[&[0x0100]]),
            with(3, &[&[0x8000, 0]]),
            with(2, &[&[], &[], &[1]]),
            with(2, &[&[], &[0, 1], &[2]]),
            with(2, &[&[1], &[0, 2, 3], &[4]]),
            with(0, &[]),
            with(0, &[&[], &[], &[], &[], &[]]),
            with(40, &[&[39, 40]]),
        ];
        for tune in tunes {
            self.module(&tune.bytes());
        }
        // A playlist of 200 entries, valid and with an invalid last entry.
        for last in [1, 2] {
            let mut playlist = [0, 1].repeat(100);
            playlist[199] = last;
            self.module(&with(2, &[&playlist]).bytes());
        }
    }

    /// The fields of instruments, in both versions.
    pub(super) fn instruments(&mut self) {
        for samples in [0, 1, 3] {
            for sample in [0, 1, 2, 3, 4, 0x0100, 0xFFFF] {
                let tune = Tune {
                    samples: vec![Sample::new(1, &[]); samples],
                    instruments: vec![Instrument {
                        sample,
                        ..Instrument::default()
                    }],
                    ..Tune::default()
                };
                self.module(&tune.bytes());
            }
        }
        let one = Tune {
            instruments: vec![Instrument::default()],
            ..Tune::default()
        };
        for volume in [0, 1, 63, 64, 65, 128, 0x0100, 0x4000, 0x8000, 0xFFFF] {
            self.tune(&one, |tune| tune.instruments[0].volume = volume);
        }
        for version in [2, 3] {
            for panning in [
                0, 1, 64, 65, 127, 128, 129, 256, 32767, -1, -64, -127, -128, -129, -256, -32768,
            ] {
                self.tune(&one, |tune| {
                    tune.version = version;
                    tune.instruments[0].panning = panning;
                });
            }
        }
        for flags in [0, 1, 2, 3, 4, 5, 7, 8, 0x80, 0x0100, 0x0101, 0x8000, 0xFFFF] {
            self.tune(&one, |tune| tune.instruments[0].flags = flags);
        }
        for rate in [0, 1, 44_100, 0x80000000, 0xFFFFFFFF] {
            self.tune(&one, |tune| {
                tune.instruments[0].rate = rate;
                tune.instruments[0].name = vec![0xFF; 30];
            });
        }
        self.second_instruments();
    }

    /// Faults in the second of two instruments, alone and together with one in the first.
    fn second_instruments(&mut self) {
        let two = Tune {
            instruments: vec![Instrument::default(); 2],
            ..Tune::default()
        };
        let faults: [fn(&mut Instrument); 4] = [
            |instrument| instrument.sample = 1,
            |instrument| instrument.volume = 65,
            |instrument| instrument.panning = 129,
            |instrument| instrument.flags = 4,
        ];
        for fault in faults {
            self.tune(&two, |tune| fault(&mut tune.instruments[1]));
            self.tune(&two, |tune| {
                fault(&mut tune.instruments[1]);
                tune.instruments[0].flags = 0x8000;
            });
        }
    }

    /// Loops on samples of 4 frames of each width, with each kind of loop; on no sample; and on a sample other than the first.
    pub(super) fn loops(&mut self) {
        let looped = |frame_bytes: u32, sample, start, length, flags| Tune {
            samples: vec![Sample::new(frame_bytes, &vec![1; 4 * frame_bytes as usize])],
            instruments: vec![Instrument {
                sample,
                loop_start: start,
                loop_length: length,
                flags,
                ..Instrument::default()
            }],
            ..Tune::default()
        };
        let loops = [
            (0, 4),
            (0, 5),
            (3, 1),
            (3, 2),
            (4, 0),
            (4, 1),
            (0xFFFFFFFF, 0),
            (0xFFFFFFFF, 2),
            (0xFFFFFFFF, 5),
            (0x80000000, 0x80000000),
            (0, 0xFFFFFFFF),
        ];
        for (index, (start, length)) in loops.into_iter().enumerate() {
            for flags in 0..4 {
                let frame_bytes = [1, 2, 4][(index + usize::from(flags)) % 3];
                self.module(&looped(frame_bytes, 1, start, length, flags).bytes());
            }
        }
        for (start, length) in [(0, 0), (0, 1), (7, 0), (0xFFFFFFFF, 1)] {
            for flags in 0..4 {
                self.module(&looped(1, 0, start, length, flags).bytes());
            }
        }
        // The loop is inside the sample if bytes are counted instead of frames.
        for frame_bytes in [2, 4] {
            self.module(&looped(frame_bytes, 1, 0, 4 * frame_bytes, 1).bytes());
            self.module(&looped(frame_bytes, 1, 4, 1, 2).bytes());
        }
        self.register_loops();
        self.several_loops();
    }

    /// The loops of the register, on 100 frames.
    fn register_loops(&mut self) {
        for (start, length) in [(90, 10), (90, 11), (4_294_967_295, 2)] {
            let tune = Tune {
                samples: vec![Sample::new(1, &[0; 100])],
                instruments: vec![Instrument {
                    sample: 1,
                    loop_start: start,
                    loop_length: length,
                    flags: 1,
                    ..Instrument::default()
                }],
                ..Tune::default()
            };
            self.module(&tune.bytes());
        }
    }

    /// Three instruments on three samples of 1, 2 and 3 frames, with loops of 1 to 3 frames.
    fn several_loops(&mut self) {
        let mut tune = Tune {
            samples: (1..=3)
                .map(|frames| Sample::new(1, &vec![0; frames]))
                .collect(),
            ..Tune::default()
        };
        for lengths in [
            [1, 2, 3],
            [3, 2, 1],
            [1, 3, 3],
            [1, 2, 4],
            [2, 3, 4],
            [0, 0, 0],
        ] {
            tune.instruments = lengths
                .iter()
                .zip(1..)
                .map(|(&loop_length, sample)| Instrument {
                    sample,
                    loop_length,
                    flags: 1 + sample % 2,
                    ..Instrument::default()
                })
                .collect();
            self.module(&tune.bytes());
        }
    }

    /// Valid and broken streams, row counts that do not match them, and fillers.
    pub(super) fn patterns(&mut self) {
        let streams: [(u16, u16, &[u8]); 26] = [
            (4, 0, &[]),
            (4, 0, &[0]),
            (4, 0, &[1]),
            (4, 1, &[]),
            (4, 1, &[0]),
            (4, 1, &[0, 0]),
            (4, 2, &[0]),
            (4, 2, &[0, 0]),
            (4, 65_535, &[0]),
            (4, 256, &[]),
            (4, 2, &[0x02, 0x03, 0x47, 0x01, 0x00, 0x00]),
            (4, 2, &[0x02, 0x07, 0x47, 0x01, 0x00, 0x00, 0x00]),
            (4, 1, &[0x01, 0x00, 0x00]),
            (4, 1, &[0x05, 0x01, 0x47, 0x00]),
            (6, 1, &[0x05, 0x01, 0x47, 0x00]),
            (6, 1, &[0x07, 0x01, 0x47, 0x00]),
            (254, 1, &[0xFE, 0x01, 0x47, 0x00]),
            (254, 1, &[0xFF, 0x01, 0x47, 0x00]),
            (4, 1, &[0x01, 0x41, 0x47, 0x00]),
            (4, 1, &[0x01, 0x80, 0x00]),
            (4, 1, &[0x01]),
            (4, 1, &[0x01, 0x3F, 1, 2, 3, 4, 5]),
            (4, 1, &[0x01, 0x3F, 1, 2, 3, 4, 5, 6]),
            (4, 1, &[0x01, 0x3F, 1, 2, 3, 4, 5, 6, 0]),
            (4, 1, &[0x04, 0x01, 0x00, 0x04, 0x01, 0x00, 0x00]),
            (4, 3, &[0, 0, 0]),
        ];
        for (tracks, rows, stream) in streams {
            for filler in [0, 0x01, 0xFF] {
                // A filler follows only an odd stream.
                if filler == 0 || stream.len() % 2 == 1 {
                    let pattern = Pattern {
                        rows,
                        stream: stream.to_vec(),
                        filler,
                    };
                    let tune = Tune {
                        tracks,
                        patterns: vec![pattern],
                        ..Tune::default()
                    };
                    self.module(&tune.bytes());
                }
            }
        }
        self.fillers();
        self.several_patterns();
    }

    /// One row more than the stream has row ends: the filler is not a row end. A packed length that includes the filler: it is left over.
    fn fillers(&mut self) {
        for filler in [0, 1] {
            let two = Pattern {
                rows: 2,
                stream: vec![0],
                filler,
            };
            let entry = Pattern {
                rows: 1,
                stream: vec![1, 0, 0],
                filler,
            };
            for pattern in [two, entry] {
                let tune = Tune {
                    patterns: vec![pattern.clone(), Pattern::new(1, &[0])],
                    ..Tune::default()
                };
                self.module(&tune.bytes());
                let counted = (pattern.stream.len() as u32 + 1).to_be_bytes();
                self.draft(&tune, |draft| draft.put(b"PATT", 2, &counted));
            }
        }
        // The last filler is missing.
        self.draft(&small(), |draft| {
            draft.chunk(b"PATT").data.pop();
        });
    }

    /// A broken stream in each of three patterns, and in two of them; and together with a loop outside its sample.
    fn several_patterns(&mut self) {
        let valid = Pattern::new(2, &[0x02, 0x03, 0x47, 0x01, 0x00, 0x00]);
        let broken = Pattern::new(2, &[0x05, 0x03, 0x47, 0x01, 0x00, 0x00]);
        for faults in 0..8 {
            let patterns = (0..3)
                .map(|index| [&valid, &broken][faults >> index & 1].clone())
                .collect();
            let tune = Tune {
                patterns,
                ..Tune::default()
            };
            self.module(&tune.bytes());
            if faults % 3 == 1 {
                self.tune(&tune, |tune| {
                    tune.instruments = vec![Instrument {
                        loop_length: 1,
                        flags: 2,
                        ..Instrument::default()
                    }];
                });
            }
        }
    }

    /// Bits 6 and 7 of masks. Every mask byte in a row of its own; and some masks in entries that are whole, that are cut at each byte, and
    /// whose track is too high.
    pub(super) fn upper_bits(&mut self) {
        let values = [0x51, 0x52, 0x53, 0x54, 0x55, 0x56];
        for upper in [0x00, 0x40, 0x80, 0xC0] {
            let row = |low: u8| [entry_of(1 + low % 4, upper | low, &values), vec![0]].concat();
            self.one_pattern(64, &(0..64).flat_map(row).collect::<Vec<u8>>());
        }
        self.module(&with_upper_bits().bytes());
        for mask in [0x40, 0x80, 0xC0, 0x41, 0x82, 0xFF] {
            let entry = entry_of(4, mask, &values);
            for cut in 1..=entry.len() {
                self.one_pattern(1, &entry[..cut]);
            }
            self.one_pattern(1, &[&entry[..], &[0]].concat());
            let too_high = entry_of(5, mask, &values);
            self.one_pattern(1, &[&too_high[..], &[0]].concat());
        }
    }

    /// A module with one pattern of four tracks.
    fn one_pattern(&mut self, rows: u16, stream: &[u8]) {
        let tune = Tune {
            patterns: vec![Pattern::new(rows, stream)],
            ..Tune::default()
        };
        self.module(&tune.bytes());
    }

    /// Valid and invalid flags, of the only, the first and the last sample.
    pub(super) fn samples(&mut self) {
        let sample = |flags, frames| Sample {
            flags,
            frames,
            data: vec![0x80; (flags.min(4) * frames) as usize],
        };
        for flags in [
            0, 1, 2, 3, 4, 5, 6, 7, 8, 16, 0x0100, 0x00010000, 0x01000000, 0x01000001, 0x80000002,
            0xFFFFFFFF,
        ] {
            for frames in [0, 1, 3] {
                let tune = Tune {
                    samples: vec![sample(flags, frames)],
                    ..Tune::default()
                };
                self.module(&tune.bytes());
            }
        }
        for flags in [
            [1, 2, 4],
            [4, 2, 1],
            [1, 3, 4],
            [2, 2, 0],
            [8, 1, 1],
            [4, 4, 4],
        ] {
            let tune = Tune {
                samples: flags.map(|flags| sample(flags, 2)).to_vec(),
                ..Tune::default()
            };
            self.module(&tune.bytes());
        }
    }
}
