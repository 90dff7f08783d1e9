//! `dbm0 report`: the text, typed by hand; and the JSON, parsed by python3 and compared with the second program.

mod common;

use std::fs;
use std::path::{Path, PathBuf};
use std::process::Command;

use common::{escaped, run, run_on, sample, sample_bytes, text, Folder, PROGRAM};
use reference::draft::{Chunk, Envelope, Instrument, Pattern, Sample, Song, Tune};
use reference::generate::{module, Limits, Random};
use reference::module::read;
use reference::records::{self, Kind};

const CAROUSEL: &str = "\
version 3.05
name \"The Golden Gallopers\"
bytes 1152
instruments 3
samples 3
songs 2
patterns 3
tracks 4
volume envelopes 1
panning envelopes 1
song 0 \"Morning ride\": patterns 0 1 0 2
song 1 \"Last ride of the day\": patterns 1 2
instrument 1 \"bass drum\": sample 1, volume 56, panning 0, rate 8363, no loop
instrument 2 \"organ\": sample 2, volume 64, panning -40, rate 8363, forward loop 16 + 48
instrument 3 \"bell\": sample 3, volume 40, panning 64, rate 8363, no loop
pattern 0: 12 rows
pattern 1: 12 rows
pattern 2: 6 rows
sample 1: 16 bits, 48 frames, 96 bytes
sample 2: 8 bits, 64 frames, 64 bytes
sample 3: 32 bits, 24 frames, 96 bytes
volume envelope 0: instrument 2, on, first sustain at point 2, points 0:0 4:64 20:48 60:0
panning envelope 0: instrument 3, on, loop from point 0 to 2, points 0:-64 24:64 48:-64
";

const OLD: &str = "\
version 2.21
name \"Village fair\"
bytes 426
instruments 1
samples 1
songs 1
patterns 1
tracks 4
volume envelopes 0
panning envelopes 1
song 0 \"Village fair\": patterns 0 0
instrument 1 \"fife\": sample 1, volume 64, panning -128, rate 8363, no loop
pattern 0: 8 rows
sample 1: 8 bits, 32 frames, 32 bytes
panning envelope 0: instrument 1, on, points 0:-128 10:0 20:128
";

const SMALLEST: &str = "\
version 3.00
name \"\"
bytes 58
instruments 0
samples 0
songs 0
patterns 0
tracks 4
volume envelopes 0
panning envelopes 0
";

const SMALLEST_JSON: &str = r#"{
  "schema": 1,
  "file": "-",
  "bytes": 58,
  "version": {"text": "3.00", "version": 3, "revision": 0},
  "name": {"text": "", "hex": "0000000000000000000000000000000000000000000000000000000000000000000000000000000000000000"},
  "counts": {"instruments": 0, "samples": 0, "songs": 0, "patterns": 0, "tracks": 4, "volume_envelopes": 0, "panning_envelopes": 0},
  "songs": [],
  "instruments": [],
  "patterns": [],
  "samples": [],
  "volume_envelopes": [],
  "panning_envelopes": []
}
"#;

#[test]
fn the_samples() {
    for (name, page) in [
        ("carousel.dbm", CAROUSEL),
        ("old.dbm", OLD),
        ("smallest.dbm", SMALLEST),
    ] {
        run(&["report", text(&sample(name))]).is(0, page, "");
        run_on(&["report", "-"], &sample_bytes(name)).is(0, page, "");
    }
    run_on(&["report", "--json", "-"], &sample_bytes("smallest.dbm")).is(0, SMALLEST_JSON, "");
    run_on(&["report", "-", "--json"], &sample_bytes("smallest.dbm")).is(0, SMALLEST_JSON, "");
}

/// For a refused module the line of the check is on standard error, and nothing else is printed.
#[test]
fn refused() {
    let file = sample("short-organ.dbm");
    let line = format!(
        "{}: refused 14 at 540: instrument 2 \"organ\": loop 16 + 48 is outside its sample 2 (40 frames)\n",
        text(&file)
    );
    for arguments in [
        vec!["report", text(&file)],
        vec!["report", "--json", text(&file)],
    ] {
        run(&arguments).is(1, "", &line);
    }
}

#[test]
fn unreadable() {
    run(&["report", "/no/such/file"])
        .fails("/no/such/file: cannot be read: No such file or directory: check its name");
    run(&["report", "/"]).fails("/: cannot be read: Is a directory: name the files in it");
}

/// Runs read_back.py on reports, and returns its output for each.
fn read_back(how: &str, reports: &[PathBuf]) -> Vec<String> {
    let script = Path::new(env!("CARGO_MANIFEST_DIR")).join("tests/read_back.py");
    let output = Command::new("python3")
        .arg(script)
        .arg(how)
        .args(reports)
        .output()
        .expect("python3 runs");
    let err = String::from_utf8_lossy(&output.stderr).into_owned();
    assert!(output.status.success(), "{err}");
    let printed = String::from_utf8(output.stdout).expect("text");
    let mut pages: Vec<String> = Vec::new();
    let mut names = reports.iter().map(|path| text(path)).peekable();
    for line in printed.lines() {
        if names.peek() == Some(&line) {
            names.next();
            pages.push(String::new());
        } else {
            let page = pages.last_mut().expect("a name comes first");
            page.push_str(line);
            page.push('\n');
        }
    }
    assert_eq!(pages.len(), reports.len());
    pages
}

/// Writes a module and its JSON report, and returns its text report.
fn reported(folder: &Folder, name: &str, module: &[u8]) -> (PathBuf, String) {
    let file = folder.file(&format!("{name}.dbm"), module);
    let as_json = run(&["report", "--json", text(&file)]);
    assert_eq!((as_json.status, as_json.err.as_str()), (Some(0), ""));
    let as_text = run(&["report", text(&file)]);
    assert_eq!((as_text.status, as_text.err.as_str()), (Some(0), ""));
    let report = folder.file(&format!("{name}.json"), &as_json.out);
    (report, as_text.text())
}

/// The JSON reports of modules agree with the second program, and the text reports agree with the JSON.
fn compare(modules: &[Vec<u8>]) {
    let folder = Folder::new();
    let (reports, pages): (Vec<PathBuf>, Vec<String>) = modules
        .iter()
        .enumerate()
        .map(|(number, module)| reported(&folder, &number.to_string(), module))
        .unzip();
    let leaves = read_back("leaves", &reports);
    let made = read_back("page", &reports);
    for (number, module) in modules.iter().enumerate() {
        let file = folder.0.join(format!("{number}.dbm"));
        assert_eq!(
            leaves[number],
            expected_leaves(text(&file), module),
            "module {number}"
        );
        assert_eq!(made[number], pages[number], "module {number}");
    }
}

/// Every value of a JSON report with its path, as the second program has it.
fn expected_leaves(file: &str, module: &[u8]) -> String {
    let mut leaves = Leaves::default();
    let info = records::info(module).expect("an accepted module");
    let (version, revision) = records::version(module).expect("accepted");
    let volume = records::volume_envelopes(module).expect("accepted");
    let panning = records::panning_envelopes(module).expect("accepted");
    leaves.put("schema", 1);
    leaves.put("file", format!("\"{file}\""));
    leaves.put("bytes", module.len());
    leaves.put(
        "version.text",
        format!("\"{version}.{}{}\"", revision >> 4, revision & 15),
    );
    leaves.put("version.version", version);
    leaves.put("version.revision", revision);
    leaves.name("name", &records::name(module).expect("accepted"));
    for (what, count) in [
        ("instruments", info.instruments),
        ("samples", info.samples),
        ("songs", info.songs),
        ("patterns", info.patterns),
        ("tracks", info.tracks),
        ("volume_envelopes", volume),
        ("panning_envelopes", panning),
    ] {
        leaves.put(&format!("counts.{what}"), count);
    }
    leaves.count("songs", info.songs);
    for number in 0..info.songs {
        leaves.song(module, number);
    }
    leaves.count("instruments", info.instruments);
    for number in 1..=info.instruments {
        leaves.instrument(module, number);
    }
    leaves.count("patterns", info.patterns);
    for number in 0..info.patterns {
        leaves.put(&format!("patterns.{number}.number"), number);
        let rows = records::pattern(module, number).expect("accepted");
        leaves.put(&format!("patterns.{number}.rows"), rows);
    }
    leaves.count("samples", info.samples);
    for number in 1..=info.samples {
        leaves.sample(module, number);
    }
    leaves.envelopes(module, "volume_envelopes", Kind::Volume, volume);
    leaves.envelopes(module, "panning_envelopes", Kind::Panning, panning);
    leaves.0
}

#[derive(Default)]
struct Leaves(String);

impl Leaves {
    fn put(&mut self, path: &str, value: impl std::fmt::Display) {
        self.0 += &format!(".{path} = {value}\n");
    }

    fn count(&mut self, path: &str, count: u64) {
        self.0 += &format!(".{path} has {count}\n");
    }

    fn name(&mut self, path: &str, name: &[u8]) {
        let text = escaped(name).replace('\\', "\\\\");
        let hex: String = name.iter().map(|byte| format!("{byte:02x}")).collect();
        self.put(&format!("{path}.text"), format!("\"{text}\""));
        self.put(&format!("{path}.hex"), format!("\"{hex}\""));
    }

    fn song(&mut self, module: &[u8], number: u64) {
        let song = records::song(module, number).expect("accepted");
        let path = format!("songs.{number}");
        self.put(&format!("{path}.number"), number);
        self.name(&format!("{path}.name"), &song.name);
        self.put(&format!("{path}.length"), song.length);
        self.count(&format!("{path}.playlist"), u64::from(song.length));
        let mut entries = vec![0; 2 * usize::from(song.length)];
        records::playlist(module, number, &mut entries).expect("accepted");
        for (index, entry) in entries.chunks(2).enumerate() {
            let pattern = u16::from_be_bytes([entry[0], entry[1]]);
            self.put(&format!("{path}.playlist.{index}"), pattern);
        }
    }

    fn instrument(&mut self, module: &[u8], number: u64) {
        let instrument = records::instrument(module, number).expect("accepted");
        let path = format!("instruments.{}", number - 1);
        let looped = instrument.loop_length != 0;
        let kind = match (looped, instrument.flags) {
            (true, 1 | 3) => "forward",
            (true, 2) => "ping-pong",
            _ => "none",
        };
        self.put(&format!("{path}.number"), number);
        self.name(&format!("{path}.name"), &instrument.name);
        self.put(&format!("{path}.sample"), instrument.sample);
        self.put(&format!("{path}.volume"), instrument.volume);
        self.put(&format!("{path}.panning"), instrument.panning);
        self.put(&format!("{path}.rate"), instrument.rate);
        self.put(&format!("{path}.flags"), instrument.flags);
        self.put(&format!("{path}.loop.kind"), format!("\"{kind}\""));
        self.put(&format!("{path}.loop.start"), instrument.loop_start);
        self.put(&format!("{path}.loop.length"), instrument.loop_length);
    }

    fn sample(&mut self, module: &[u8], number: u64) {
        let sample = records::sample(module, number).expect("accepted");
        let path = format!("samples.{}", number - 1);
        self.put(&format!("{path}.number"), number);
        self.put(&format!("{path}.width"), sample.width);
        self.put(&format!("{path}.frames"), sample.frames);
        self.put(&format!("{path}.length"), records::frames(module, number).1);
    }

    fn envelopes(&mut self, module: &[u8], name: &str, kind: Kind, count: u64) {
        self.count(name, count);
        for number in 0..count {
            let envelope = records::envelope(module, kind, number).expect("accepted");
            let path = format!("{name}.{number}");
            self.put(&format!("{path}.number"), number);
            self.put(&format!("{path}.instrument"), envelope.instrument);
            self.put(&format!("{path}.flags"), envelope.flags);
            self.put(&format!("{path}.on"), envelope.flags % 2 == 1);
            self.put(&format!("{path}.sections"), envelope.sections);
            self.put(&format!("{path}.first_sustain"), envelope.first_sustain);
            self.put(&format!("{path}.loop_first"), envelope.loop_first);
            self.put(&format!("{path}.loop_last"), envelope.loop_last);
            self.put(&format!("{path}.second_sustain"), envelope.second_sustain);
            let in_use = usize::from(envelope.sections) + 1;
            self.count(&format!("{path}.points"), in_use as u64);
            for (index, point) in envelope.points[..in_use].iter().enumerate() {
                self.count(&format!("{path}.points.{index}"), 2);
                self.put(&format!("{path}.points.{index}.0"), point.position);
                self.put(&format!("{path}.points.{index}.1"), point.value);
            }
        }
    }
}

#[test]
fn the_samples_in_json() {
    compare(&["carousel.dbm", "old.dbm", "smallest.dbm"].map(sample_bytes));
}

#[test]
fn modules_of_the_generator() {
    let usual: Vec<Vec<u8>> = (1..=250)
        .map(|seed| module(&mut Random::new(seed), &Limits::USUAL).bytes())
        .collect();
    compare(&usual);
    let small: Vec<Vec<u8>> = (1..=150)
        .map(|seed| module(&mut Random::new(1_000 + seed), &Limits::SMALL).bytes())
        .collect();
    compare(&small);
}

/// The maximum number of every item except songs, and many songs.
#[test]
fn many_records() {
    let most = Limits {
        songs: 400,
        entries: 90,
        instruments: 255,
        patterns: 1_024,
        rows: 4,
        row_entries: 2,
        tracks: 254,
        samples: 255,
        frames: 50,
        envelopes: 300,
        others: 50,
        other_bytes: 100,
    };
    // The seeds whose modules have many records of all kinds.
    let modules: Vec<Vec<u8>> = (1..)
        .map(|seed| module(&mut Random::new(seed), &most).bytes())
        .filter(|module| module.len() > 100_000)
        .take(2)
        .collect();
    compare(&modules);
}

/// Names with every byte, in every kind of name, and 255 of each item.
#[test]
fn names_of_all_bytes() {
    let all: Vec<u8> = (0..=255).collect();
    let mut long: Vec<Vec<u8>> = all.chunks(44).map(<[u8]>::to_vec).collect();
    let mut short: Vec<Vec<u8>> = all.chunks(30).map(<[u8]>::to_vec).collect();
    // Each byte also as the first byte and as the last but one, and zeros in the middle and at both ends.
    for &byte in &all {
        let mut name = vec![b'a'; 44];
        name[0] = byte;
        name[42] = byte;
        short.push(name[14..].to_vec());
        long.push(name);
    }
    long.extend([vec![0; 44], b"\0\0a\0b\0\0".to_vec(), vec![0xFF; 44]]);
    short.extend([vec![0; 30], b"\0\0a\0b\0\0".to_vec(), vec![0xFF; 30]]);
    short.truncate(255);
    let modules: Vec<Vec<u8>> = long
        .iter()
        .take(8)
        .map(|name| {
            let tune = Tune {
                name: Some(name.clone()),
                songs: long
                    .iter()
                    .map(|name| Song {
                        name: name.clone(),
                        playlist: Vec::new(),
                    })
                    .collect(),
                instruments: short
                    .iter()
                    .map(|name| Instrument {
                        name: name.clone(),
                        ..Instrument::default()
                    })
                    .collect(),
                ..Tune::default()
            };
            tune.bytes()
        })
        .collect();
    compare(&modules);
}

/// The same names, typed by hand.
#[test]
fn names_by_hand() {
    let with = |name: &[u8]| {
        let tune = Tune {
            name: Some(name.to_vec()),
            ..Tune::default()
        };
        let run = run_on(&["report", "-"], &tune.bytes());
        assert_eq!(run.status, Some(0));
        run.text()
            .lines()
            .nth(1)
            .expect("a second line")
            .to_string()
    };
    assert_eq!(with(b"plain ~!"), "name \"plain ~!\"");
    assert_eq!(
        with(b"\xFCber \"x\" \\ \x1b[2J\x7F"),
        "name \"\\xfcber \\x22x\\x22 \\x5c \\x1b[2J\\x7f\""
    );
    assert_eq!(with(b"\0a\0\nb\0\0"), "name \"\\x00a\\x00\\x0ab\"");
    assert_eq!(with("für".as_bytes()), "name \"f\\xc3\\xbcr\"");
    assert_eq!(with(&[b' '; 44]), format!("name \"{}\"", " ".repeat(44)));
}

/// Bits 6 and 7 of masks are not in the report.
#[test]
fn upper_bits_of_masks() {
    for bits in [0, 0x40, 0x80, 0xC0] {
        let stream = [1, bits | 1, 0x47, 2, bits, 0, 4, bits | 0x30, 5, 6, 0];
        let tune = Tune {
            patterns: vec![Pattern::new(2, &stream)],
            ..Tune::default()
        };
        let report = "version 3.00\nname \"\"\nbytes 76\ninstruments 0\nsamples 0\nsongs 0\npatterns 1\ntracks 4\n\
                      volume envelopes 0\npanning envelopes 0\npattern 0: 2 rows\n";
        run_on(&["report", "-"], &tune.bytes()).is(0, report, "");
    }
}

/// The kinds of loops, and the stored numbers of a loop that is off.
#[test]
fn loops() {
    let looped = |start, length, flags| {
        let tune = Tune {
            samples: vec![Sample::new(1, &[0; 100])],
            instruments: vec![Instrument {
                sample: 1,
                loop_start: start,
                loop_length: length,
                flags,
                ..Instrument::default()
            }],
            ..Tune::default()
        };
        let run = run_on(&["report", "-"], &tune.bytes());
        assert_eq!(run.status, Some(0));
        let line = run
            .text()
            .lines()
            .nth(10)
            .expect("an instrument")
            .to_string();
        line.strip_prefix("instrument 1 \"\": sample 1, volume 0, panning 0, rate 0, ")
            .expect("the rest")
            .to_string()
    };
    assert_eq!(looped(1, 99, 1), "forward loop 1 + 99");
    assert_eq!(looped(1, 99, 2), "ping-pong loop 1 + 99");
    assert_eq!(looped(1, 99, 3), "forward loop 1 + 99");
    assert_eq!(
        looped(1, 4_294_967_295, 0),
        "no loop (stored: 1 + 4294967295)"
    );
    assert_eq!(looped(7, 0, 3), "no loop (stored: 7 + 0)");
    assert_eq!(looped(0, 0, 1), "no loop");
}

/// A module of 16 MiB: packed rows, samples and other chunks, with the maximum number of instruments, patterns and samples.
#[test]
fn large_modules() {
    let stream = [[1u8, 0x3F, 1, 2, 3, 4, 5, 6].repeat(100), vec![0]]
        .concat()
        .repeat(9);
    let tune = Tune {
        name: Some(b"large".to_vec()),
        songs: (0..20)
            .map(|song| Song {
                name: b"song".to_vec(),
                playlist: (0..1_024).map(|entry| (entry * song) % 1_024).collect(),
            })
            .collect(),
        instruments: (0..255)
            .map(|index| Instrument {
                sample: 255 - index,
                loop_start: 10,
                loop_length: 30_000,
                flags: 1 + index % 3,
                ..Instrument::default()
            })
            .collect(),
        patterns: vec![Pattern::new(9, &stream); 1_024],
        samples: vec![Sample::new(1, &[0; 30_010]); 255],
        ..Tune::default()
    };
    let mut draft = tune.draft();
    let room = 16_777_216 - draft.bytes().len() - 8;
    draft.chunks.insert(1, Chunk::new(b"FILL", vec![1; room]));
    let folder = Folder::new();
    let (report, page) = reported(&folder, "large", &draft.bytes());
    assert_eq!(read_back("page", &[report])[0], page);
    assert_eq!(page.lines().count(), 10 + 20 + 255 + 1_024 + 255);
    assert_eq!(
        page.lines().nth(10 + 20).expect("an instrument"),
        "instrument 1 \"\": sample 255, volume 0, panning 0, rate 0, forward loop 10 + 30000"
    );
    let first = page.lines().nth(10 + 3).expect("a song");
    assert!(
        first.starts_with("song 3 \"song\": patterns 0 3 6 9 "),
        "{first}"
    );
}

/// The text report of a module, made from the second program's records.
fn expected_page(bytes: &[u8]) -> String {
    let module = read(bytes).expect("an accepted module");
    let (header, info) = (module.header, module.info);
    let mut page = format!(
        "version {}.{:02x}\nname \"{}\"\nbytes {}\ninstruments {}\nsamples {}\nsongs {}\npatterns {}\ntracks {}\n\
         volume envelopes {}\npanning envelopes {}\n",
        header.version,
        header.revision,
        escaped(module.name.unwrap_or_default()),
        bytes.len(),
        info.instruments,
        info.samples,
        info.songs,
        info.patterns,
        info.tracks,
        module.volume_envelopes.len(),
        module.panning_envelopes.len()
    );
    for (number, song) in module.songs.iter().enumerate() {
        page += &format!("song {number} \"{}\": patterns", escaped(song.name));
        if song.playlist.bytes.is_empty() {
            page += " none";
        }
        for entry in song.playlist.numbers() {
            page += &format!(" {}", entry.value);
        }
        page += "\n";
    }
    for (index, instrument) in module.instruments.iter().enumerate() {
        assert!(!instrument.is_looped() && instrument.sample.value == 0);
        page += &format!(
            "instrument {} \"{}\": no sample, volume {}, panning {}, rate {}, no loop\n",
            index + 1,
            escaped(instrument.name),
            instrument.volume.value,
            instrument.panning.signed(),
            instrument.rate.value
        );
    }
    for (number, pattern) in module.patterns.iter().enumerate() {
        page += &format!("pattern {number}: {} rows\n", pattern.rows);
    }
    assert!(module.samples.is_empty());
    for (kind, envelopes, scaled) in [
        ("volume", &module.volume_envelopes, false),
        ("panning", &module.panning_envelopes, header.version == 2),
    ] {
        for (number, envelope) in envelopes.iter().enumerate() {
            let on = if envelope.has(0) { "on" } else { "off" };
            page += &format!(
                "{kind} envelope {number}: instrument {}, {on}, points",
                envelope.instrument.value
            );
            assert!(envelope.flags.value <= 1);
            for (position, value) in envelope.points_in_use() {
                let value = match scaled {
                    true => 4 * value.value as i64 - 128,
                    false => value.signed(),
                };
                page += &format!(" {}:{value}", position.value);
            }
            page += "\n";
        }
    }
    page
}

/// The maximum number of songs, and very many envelopes: both reports agree with the second program.
#[test]
fn very_many_records() {
    let envelopes = |count: u32, least: i16| {
        let of = |number: u32| Envelope {
            instrument: 1 + (number % 255) as u16,
            flags: (number % 2) as u8,
            sections: (number % 32) as u8,
            points: (0..32)
                .map(|point| {
                    (
                        number as u16 ^ point << 11,
                        least + point as i16 + (number % 33) as i16,
                    )
                })
                .collect(),
            ..Envelope::default()
        };
        Some((0..count).map(of).collect())
    };
    let folder = Folder::new();
    for (version, least) in [(2, 0), (3, -70)] {
        let tune = Tune {
            version,
            revision: 0x21,
            songs: (0..32_767)
                .map(|song: u32| Song {
                    name: format!("song \"{song}\"").into_bytes(),
                    playlist: (0..song % 64)
                        .map(|entry| (song * 7 + entry * entry) as u16 % 1_024)
                        .collect(),
                })
                .collect(),
            instruments: vec![Instrument::default(); 255],
            patterns: vec![Pattern::default(); 1_024],
            volume_envelopes: envelopes(13_000, 0),
            panning_envelopes: envelopes(12_000, least),
            ..Tune::default()
        };
        let module = tune.bytes();
        let (report, page) = reported(&folder, &version.to_string(), &module);
        assert!(page == expected_page(&module), "version {version}");
        assert!(read_back("page", &[report])[0] == page, "version {version}");
    }
}

/// A file whose name contains bytes that are escaped in text and in JSON.
#[test]
fn file_names() {
    use std::os::unix::ffi::OsStrExt;
    let folder = Folder::new();
    let name = std::ffi::OsStr::from_bytes(b"a\n\"b\\\xFF\xC3\xBC.dbm");
    let path = folder.0.join(name);
    fs::write(&path, sample_bytes("smallest.dbm")).expect("written");
    let output = Command::new(PROGRAM)
        .current_dir(&folder.0)
        .args(["check".as_ref(), name])
        .output()
        .expect("the program runs");
    assert_eq!(
        String::from_utf8(output.stdout).expect("text"),
        "a\\x0a\"b\\x5c\\xffü.dbm: accepted\n"
    );
    let output = Command::new(PROGRAM)
        .current_dir(&folder.0)
        .args(["report".as_ref(), name, "--json".as_ref()])
        .output()
        .expect("the program runs");
    let report = folder.file("report.json", &output.stdout);
    let leaves = read_back("leaves", &[report]);
    let line = leaves[0].lines().nth(1).expect("a second line").to_string();
    assert_eq!(line, ".file = \"a\\\\x0a\\\"b\\\\x5c\\\\xff\\u00fc.dbm\"");
}
