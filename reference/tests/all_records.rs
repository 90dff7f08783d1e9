//! All records of a module, with expectations typed by hand.
//!
//! Modules and their records are hexadecimal, one part on each line. Blanks and line ends are ignored.

use reference::all_records::write;
use reference::draft::{Envelope, Tune};
use reference::generate::{damage, module as made, Limits, Random};
use reference::module::check;
use reference::records::{self, Kind};
use reference::refusal::Refusal;
use reference::tunes::files;

fn refused(number: u64, place: u64) -> Result<u64, Refusal> {
    Err(Refusal { number, place })
}

/// The bytes of hexadecimal digits.
#[track_caller]
fn bytes(hex: &str) -> Vec<u8> {
    let digits: Vec<u8> = hex
        .bytes()
        .filter(|byte| !byte.is_ascii_whitespace())
        .map(|digit| match digit {
            b'0'..=b'9' => digit - b'0',
            b'a'..=b'f' => digit - b'a' + 10,
            _ => panic!("{digit:02x} is no digit"),
        })
        .collect();
    assert_eq!(digits.len() % 2, 0);
    digits
        .chunks(2)
        .map(|pair| pair[0] << 4 | pair[1])
        .collect()
}

/// The records of the module, written into an output that is longer than needed.
#[track_caller]
fn written(module: &[u8]) -> Vec<u8> {
    let mut out = vec![0xAA; module.len() + 100];
    let length = write(module, &mut out).expect("an accepted module");
    let (written, after) = out.split_at(length as usize);
    assert!(after.iter().all(|&byte| byte == 0xAA));
    written.to_vec()
}

/// The records of the module are these bytes, for outputs of every length. A shorter output is refused with 17 and the needed length, and
/// nothing is written. The bytes after the needed length are unchanged.
#[track_caller]
fn shows(module: &[u8], records: &[u8]) {
    assert_eq!(check(module), Ok(()));
    let needed = records.len();
    for room in 0..needed {
        let mut out = vec![0xAA; room];
        assert_eq!(write(module, &mut out), refused(17, needed as u64));
        assert_eq!(out, vec![0xAA; room]);
    }
    for more in [0, 1, 2, 7, 100] {
        let mut out = vec![0xAA; needed + more];
        assert_eq!(write(module, &mut out), Ok(needed as u64));
        assert_eq!(out[..needed], *records);
        assert_eq!(out[needed..], vec![0xAA; more]);
    }
}

/// Version 2.21, with everything except the name. PENV is first, SONG is last, and there are two other chunks between them.
///
///        0 header
///        8 PENV   16 count, 18 the first envelope, 154 the second, 290 the end
///      290 INFO
///      308 SMPL   316 a sample of 16 bits, 328 one of 8 bits, 340 the end
///      340 ABCD
///      351 PATT   359 two rows, 371 one row and a filler, 379 the end
///      379 INST   387 the first, 437 the second, 487 the end
///      487 VENV   495 count, 497 the envelope, 633 the end
///      633 DSPE
///      641 SONG   649 the first, 701 the second, 747 the end
const OLD: &str = "
    44424d30 02 21 dead
    50454e56 00000112 0002
        0001 01 02 00000000
            0000 0000  0005 0010  ffff 0040
            1234 5678  1234 5678  1234 5678  1234 5678  1234 5678  1234 5678  1234 5678  1234 5678
            1234 5678  1234 5678  1234 5678  1234 5678  1234 5678  1234 5678  1234 5678  1234 5678
            1234 5678  1234 5678  1234 5678  1234 5678  1234 5678  1234 5678  1234 5678  1234 5678
            1234 5678  1234 5678  1234 5678  1234 5678  1234 5678
        0002 0f 00 00000000
            0007 0020
            ffff ffff  ffff ffff  ffff ffff  ffff ffff  ffff ffff  ffff ffff  ffff ffff  ffff ffff
            ffff ffff  ffff ffff  ffff ffff  ffff ffff  ffff ffff  ffff ffff  ffff ffff  ffff ffff
            ffff ffff  ffff ffff  ffff ffff  ffff ffff  ffff ffff  ffff ffff  ffff ffff  ffff ffff
            ffff ffff  ffff ffff  ffff ffff  ffff ffff  ffff ffff  ffff ffff  ffff ffff
    494e464f 0000000a 0002 0002 0002 0002 0006
    534d504c 00000018
        00000002 00000002 01020304
        00000001 00000004 50415454
    41424344 00000003 616263
    50415454 00000014
        0002 00000006 020347010000
        0001 00000001 00 77
    494e5354 00000064
        6f7267616e0000000000000000000000000000000000000000000000ff00
            0002 0040 000020ab 00000001 00000003 ff80 0003
        ffffffffffffffffffffffffffffffffffffffffffffffffffffffffffff
            0000 0000 ffffffff fffffffe 80000000 0080 0000
    56454e56 0000008a 0001
        0002 0b 1f 01 63 62 1f
            0000 0000  0001 0001  0002 0002  0003 0003  0004 0004  0005 0005  0006 0006  0007 0007
            0008 0008  0009 0009  000a 000a  000b 000b  000c 000c  000d 000d  000e 000e  000f 000f
            0010 0010  0011 0011  0012 0012  0013 0013  0014 0014  0015 0015  0016 0016  0017 0017
            0018 0018  0019 0019  001a 001a  001b 001b  001c 001c  001d 001d  001e 001e  ffff 0040
    44535045 00000000
    534f4e47 00000062
        4d6f726e696e6700000000000000000000000000000000000000000000000000000000000000000000000000
            0003 0001 0000 0001
        fefefefefefefefefefefefefefefefefefefefefefefefefefefefefefefefefefefefefefefefefefefefe
            0000";

/// The panning values 0, 16 and 64 are returned as -128, -64 and 128, and 32 as 0. Points not in use are returned as zeros. The stored
/// points of sustain and loop are returned unchanged, even if they are off.
const OLD_RECORDS: &str = "
    02 21
    0000000000000000000000000000000000000000000000000000000000000000000000000000000000000000
    0002 0002 0002 0002 0006 0001 0002
        4d6f726e696e6700000000000000000000000000000000000000000000000000000000000000000000000000
            0003 0001 0000 0001
        fefefefefefefefefefefefefefefefefefefefefefefefefefefefefefefefefefefefefefefefefefefefe
            0000
        6f7267616e0000000000000000000000000000000000000000000000ff00
            0002 0040 000020ab 00000001 00000003 ff80 0003
        ffffffffffffffffffffffffffffffffffffffffffffffffffffffffffff
            0000 0000 ffffffff fffffffe 80000000 0080 0000
        0002
        0001
        0010 00000002
        0008 00000004
        0002 0b 1f 01 63 62 1f
            0000 0000  0001 0001  0002 0002  0003 0003  0004 0004  0005 0005  0006 0006  0007 0007
            0008 0008  0009 0009  000a 000a  000b 000b  000c 000c  000d 000d  000e 000e  000f 000f
            0010 0010  0011 0011  0012 0012  0013 0013  0014 0014  0015 0015  0016 0016  0017 0017
            0018 0018  0019 0019  001a 001a  001b 001b  001c 001c  001d 001d  001e 001e  ffff 0040
        0001 01 02 00000000
            0000 ff80  0005 ffc0  ffff 0080
            0000 0000  0000 0000  0000 0000  0000 0000  0000 0000  0000 0000  0000 0000  0000 0000
            0000 0000  0000 0000  0000 0000  0000 0000  0000 0000  0000 0000  0000 0000  0000 0000
            0000 0000  0000 0000  0000 0000  0000 0000  0000 0000  0000 0000  0000 0000  0000 0000
            0000 0000  0000 0000  0000 0000  0000 0000  0000 0000
        0002 0f 00 00000000
            0007 0000
            0000 0000  0000 0000  0000 0000  0000 0000  0000 0000  0000 0000  0000 0000  0000 0000
            0000 0000  0000 0000  0000 0000  0000 0000  0000 0000  0000 0000  0000 0000  0000 0000
            0000 0000  0000 0000  0000 0000  0000 0000  0000 0000  0000 0000  0000 0000  0000 0000
            0000 0000  0000 0000  0000 0000  0000 0000  0000 0000  0000 0000  0000 0000";

#[test]
fn everything_byte_by_byte() {
    let module = bytes(OLD);
    assert_eq!(module.len(), 747);
    let records = bytes(OLD_RECORDS);
    // 60, then 46 + 6 and 46, then 2 times 50, 2 times 2, 2 times 6, and 3 times 136.
    assert_eq!(records.len(), 60 + 98 + 100 + 4 + 12 + 408);
    shows(&module, &records);
}

/// In version 3 the panning values are signed: the three of the first envelope are -128, 128 and -1.
#[test]
fn panning_of_version_3() {
    let mut module = bytes(OLD);
    module[4] = 3;
    for (point, value) in [(0, [0xFF, 0x80]), (1, [0x00, 0x80]), (2, [0xFF, 0xFF])] {
        module[26 + 4 * point + 2..][..2].copy_from_slice(&value);
    }
    let mut records = bytes(OLD_RECORDS);
    records[0] = 3;
    // The panning envelopes are the last two, 136 bytes each. The value of the first point of the second is 32 now.
    let first = records.len() - 2 * 136 + 8;
    let points = bytes("0000 ff80  0005 0080  ffff ffff");
    records[first..first + 12].copy_from_slice(&points);
    records[first + 136..first + 140].copy_from_slice(&bytes("0007 0020"));
    shows(&module, &records);
}

const SMALLEST: &str = "
    44424d30 03 00 0000
    494e464f 0000000a 0000 0000 0000 0000 0004
    534f4e47 00000000 494e5354 00000000 50415454 00000000 534d504c 00000000";

#[test]
fn the_smallest_module() {
    let records = "
        03 00
        0000000000000000000000000000000000000000000000000000000000000000000000000000000000000000
        0000 0000 0000 0000 0004 0000 0000";
    assert_eq!(bytes(records).len(), 60);
    shows(&bytes(SMALLEST), &bytes(records));
}

/// A name with all kinds of bytes after all other chunks, and the highest revision.
#[test]
fn a_name() {
    let name =
        "00ff20000a22007f80c3bc5c4142434445464748494a4b4c4d4e4f505152535455565758595a610062000001";
    let mut module = bytes(SMALLEST);
    module[5] = 0x99;
    module.extend(bytes(&format!("4e414d45 0000002c {name}")));
    let records = format!("03 99 {name} 0000 0000 0000 0000 0004 0000 0000");
    shows(&module, &bytes(&records));
}

/// No chunk of envelopes, or a chunk without envelopes: the records are the same.
#[test]
fn no_envelopes() {
    let none = bytes(SMALLEST);
    let empty = [
        none.clone(),
        bytes("50454e56 00000002 0000 56454e56 00000002 0000"),
    ]
    .concat();
    assert_eq!(written(&empty), written(&none));
}

/// Every number of points in use that an envelope can have.
#[test]
fn points_in_use() {
    for sections in 0..=31 {
        let points: Vec<(u16, i16)> = (0..32)
            .map(|point| (1_000 + point, 33 + point as i16))
            .collect();
        let envelope = Envelope {
            instrument: 1,
            sections,
            points,
            ..Envelope::default()
        };
        let tune = Tune {
            version: 2,
            instruments: vec![Default::default()],
            volume_envelopes: Some(vec![envelope.clone()]),
            panning_envelopes: Some(vec![envelope]),
            ..Tune::default()
        };
        let out = written(&tune.bytes());
        assert_eq!(out.len(), 60 + 50 + 2 * 136);
        for point in 0..32 {
            let at = |envelope: usize| {
                let place = 60 + 50 + 136 * envelope + 8 + 4 * point;
                i64::from(i32::from_be_bytes(
                    out[place..place + 4].try_into().expect("4 bytes"),
                ))
            };
            let (position, value) = (1_000 + point as i64, 33 + point as i64);
            let (volume, panning) = match point <= usize::from(sections) {
                true => (
                    65_536 * position + value,
                    65_536 * position + 4 * value - 128,
                ),
                false => (0, 0),
            };
            assert_eq!(
                (at(0), at(1)),
                (volume, panning),
                "{sections} sections, point {point}"
            );
        }
    }
}

/// The module's own refusal has priority over 17, and nothing is written.
#[test]
fn refusals_of_the_module() {
    let module = bytes(OLD);
    for (place, byte, number, at) in [
        (0, b'X', 2, 0),
        (4, 4, 3, 4),
        (648, 0x63, 4, 641),
        (340, b'a', 5, 340),
        (17, 3, 11, 8),
        (307, 5, 10, 306),
        (644, b'H', 8, 747),
        (696, 2, 12, 695),
        (417, 3, 12, 417),
        (419, 65, 13, 419),
        (498, 3, 12, 497),
        (501, 0x20, 13, 501),
        (29, 65, 13, 28),
        (430, 4, 14, 387),
        (365, 7, 15, 359),
    ] {
        let mut module = module.clone();
        assert_ne!(module[place], byte);
        module[place] = byte;
        let refusal = refused(number, at);
        assert_eq!(check(&module).map(|()| 0), refusal, "{place}");
        for room in [0, 1, 59, 60, 681, 682, 747, 2_000] {
            let mut out = vec![0xAA; room];
            assert_eq!(write(&module, &mut out), refusal, "{place}");
            assert_eq!(out, vec![0xAA; room]);
        }
    }
    for cut in 0..module.len() {
        let mut out = [0xAA; 1_000];
        let cut = &module[..cut];
        assert_eq!(write(cut, &mut out).err(), check(cut).err());
        assert_eq!(out, [0xAA; 1_000]);
    }
    let mut out = vec![0xAA; 100];
    assert_eq!(write(&vec![0; 16_777_217], &mut out), refused(1, 0));
    assert_eq!(out, [0xAA; 100]);
}

/// The same bytes, assembled from the answers of the queries.
fn from_queries(module: &[u8]) -> Vec<u8> {
    let (version, revision) = records::version(module).expect("accepted");
    let mut all = vec![version, revision];
    all.extend(records::name(module).expect("accepted"));
    let info = records::info(module).expect("accepted");
    let volume = records::volume_envelopes(module).expect("accepted");
    let panning = records::panning_envelopes(module).expect("accepted");
    for number in [
        info.instruments,
        info.samples,
        info.songs,
        info.patterns,
        info.tracks,
        volume,
        panning,
    ] {
        all.extend(u16::try_from(number).expect("two bytes").to_be_bytes());
    }
    for number in 0..info.songs {
        let song = records::song(module, number).expect("accepted");
        all.extend(song.name);
        all.extend(song.length.to_be_bytes());
        for entry in 0..song.length {
            let entry = records::entry(module, number, u64::from(entry)).expect("accepted");
            all.extend(entry.to_be_bytes());
        }
    }
    for number in 1..=info.instruments {
        let shown = records::instrument(module, number).expect("accepted");
        all.extend(shown.name);
        all.extend(
            [shown.sample, shown.volume]
                .into_iter()
                .flat_map(u16::to_be_bytes),
        );
        let wide = [shown.rate, shown.loop_start, shown.loop_length];
        all.extend(wide.into_iter().flat_map(u32::to_be_bytes));
        all.extend(shown.panning.to_be_bytes());
        all.extend(shown.flags.to_be_bytes());
    }
    for number in 0..info.patterns {
        all.extend(
            records::pattern(module, number)
                .expect("accepted")
                .to_be_bytes(),
        );
    }
    for number in 1..=info.samples {
        let shown = records::sample(module, number).expect("accepted");
        all.extend([0, shown.width]);
        all.extend(shown.frames.to_be_bytes());
    }
    for (kind, count) in [(Kind::Volume, volume), (Kind::Panning, panning)] {
        for number in 0..count {
            let shown = records::envelope(module, kind, number).expect("accepted");
            all.extend(shown.instrument.to_be_bytes());
            all.extend([shown.flags, shown.sections, shown.first_sustain]);
            all.extend([shown.loop_first, shown.loop_last, shown.second_sustain]);
            for point in shown.points {
                all.extend(point.position.to_be_bytes());
                all.extend(point.value.to_be_bytes());
            }
        }
    }
    all
}

/// Each record equals the answer of its own query, and an output of the module's length and 60 bytes is enough.
#[test]
fn records_are_what_the_queries_answer() {
    let samples = files().map(|(_, module)| module).into_iter();
    let drawn = (1..=150).map(|seed| {
        let most = if seed % 5 == 0 {
            Limits::USUAL
        } else {
            Limits::SMALL
        };
        made(&mut Random::new(seed), &most).bytes()
    });
    for module in samples.chain([bytes(OLD)]).chain(drawn) {
        if check(&module).is_ok() {
            let out = written(&module);
            assert_eq!(out, from_queries(&module));
            assert!(out.len() <= module.len() + 60);
        }
    }
}

#[test]
fn damaged_modules_are_refused_as_by_the_check() {
    let mut refused = 0;
    for seed in 1..=2_000 {
        let random = &mut Random::new(seed);
        let mut draft = made(random, &Limits::SMALL);
        damage(random, &mut draft);
        let module = draft.bytes();
        let mut out = vec![0xAA; module.len() + 60];
        let answer = write(&module, &mut out);
        assert_eq!(answer.err(), check(&module).err());
        if answer.is_err() {
            refused += 1;
            assert!(out.iter().all(|&byte| byte == 0xAA));
        }
    }
    assert!(refused >= 1_000, "{refused}");
}
