//! Modules of the maximum length.

use reference::chunks::Name;
use reference::draft::{Chunk, Draft, Tune};

/// The maximum length of a module in bytes.
pub const MOST: usize = 16_777_216;

/// The bytes of a module, extended to a length by an extra chunk before all others.
pub fn filled_up(mut draft: Draft, length: usize) -> Vec<u8> {
    let data = length - draft.bytes().len() - 8;
    draft
        .chunks
        .insert(0, Chunk::new(b"FILL", vec![0xA5; data]));
    let module = draft.bytes();
    assert_eq!(module.len(), length);
    module
}

/// Playlists for the last song, the last but two and so on, which fill the module. There are 1,024 patterns.
pub fn fill_playlists(tune: &mut Tune) {
    let mut entries = (MOST - tune.bytes().len()) / 2;
    for song in tune.songs.iter_mut().rev().step_by(2) {
        let here = entries.min(65_535);
        song.playlist = (0..here).map(|entry| entry as u16 % 1_024).collect();
        entries -= here;
    }
    assert_eq!(entries, 0);
}

/// The same module with one chunk after all others.
pub fn with_last(tune: &Tune, name: &Name) -> Draft {
    let mut draft = tune.draft();
    let index = draft.index(name);
    let last = draft.chunks.remove(index);
    draft.chunks.push(last);
    draft
}
