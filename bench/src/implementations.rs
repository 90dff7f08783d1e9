//! The four implementations under one interface.

use interface::{Compared, RecordAnswer, Replaced};
use reference::{compare, module, pattern, repack, replace};

/// The answer of a call on a pattern and of repacking a module, the answer of the check of a module, and the answers of replacing a sample
/// and of comparing two modules. The C implementations use the same four.
pub use interface::{Answer, ModuleAnswer as Verdict};
pub type ReplaceAnswer = RecordAnswer<Replaced>;
pub type CompareAnswer = RecordAnswer<Compared>;

pub type Check = fn(&[u8], u64, u64) -> Answer;
pub type Fill = fn(&[u8], u64, u64, &mut [u8]) -> Answer;
pub type CheckModule = fn(&[u8]) -> Verdict;
pub type RepackModule = fn(&[u8], &mut [u8]) -> Answer;
pub type ReplaceSample = fn(&[u8], usize, &[u8], &mut [u8]) -> ReplaceAnswer;
pub type CompareModules = fn(&[u8], &[u8], &mut [u8]) -> CompareAnswer;

pub struct Implementation {
    pub name: &'static str,
    pub check: Check,
    pub unpack: Fill,
    pub pack: Fill,
    pub check_module: CheckModule,
    pub repack_module: RepackModule,
    pub replace_sample: ReplaceSample,
    pub compare_modules: CompareModules,
}

pub const OURS: usize = 0;
pub const PLAIN: usize = 1;
pub const EXPERT: usize = 2;
pub const COUNT: usize = 4;

pub const IMPLEMENTATIONS: [Implementation; COUNT] = [
    Implementation {
        name: "ours",
        check: interface::check_pattern,
        unpack: interface::unpack_pattern,
        pack: interface::pack_pattern,
        check_module: interface::check_module,
        repack_module: interface::repack,
        replace_sample: interface::replace_sample,
        compare_modules: interface::compare,
    },
    Implementation {
        name: "plain C",
        check: plain::check,
        unpack: plain::unpack,
        pack: plain::pack,
        check_module: plain::check_module,
        repack_module: plain::repack_module,
        replace_sample: plain::replace_sample,
        compare_modules: plain::compare_modules,
    },
    Implementation {
        name: "expert C",
        check: expert::check,
        unpack: expert::unpack,
        pack: expert::pack,
        check_module: expert::check_module,
        repack_module: expert::repack_module,
        replace_sample: expert::replace_sample,
        compare_modules: expert::compare_modules,
    },
    Implementation {
        name: "Rust",
        check: rust_check,
        unpack: rust_unpack,
        pack: rust_pack,
        check_module: rust_check_module,
        repack_module: rust_repack_module,
        replace_sample: rust_replace_sample,
        compare_modules: rust_compare_modules,
    },
];

/// Safe wrappers of seven C functions. A slice is passed as a pointer and a length, and the C functions read and write only there.
macro_rules! over_c {
    ($name:ident, $check:ident, $unpack:ident, $pack:ident, $check_module:ident, $repack_module:ident, $replace_sample:ident, $compare_modules:ident) => {
        mod $name {
            use super::{Answer, CompareAnswer, ReplaceAnswer, Verdict};

            unsafe extern "C" {
                fn $check(stream: *const u8, length: usize, rows: u64, tracks: u64) -> Answer;
                fn $unpack(
                    stream: *const u8,
                    length: usize,
                    rows: u64,
                    tracks: u64,
                    out: *mut u8,
                    out_length: usize,
                ) -> Answer;
                fn $pack(
                    cells: *const u8,
                    length: usize,
                    rows: u64,
                    tracks: u64,
                    out: *mut u8,
                    out_length: usize,
                ) -> Answer;
                fn $check_module(module: *const u8, length: usize) -> Verdict;
                fn $repack_module(
                    module: *const u8,
                    length: usize,
                    out: *mut u8,
                    out_length: usize,
                ) -> Answer;
                fn $replace_sample(
                    module: *const u8,
                    length: usize,
                    sample: usize,
                    frames: *const u8,
                    frames_length: usize,
                    out: *mut u8,
                    out_length: usize,
                ) -> ReplaceAnswer;
                fn $compare_modules(
                    first: *const u8,
                    first_length: usize,
                    second: *const u8,
                    second_length: usize,
                    out: *mut u8,
                    out_length: usize,
                ) -> CompareAnswer;
            }

            pub fn check(stream: &[u8], rows: u64, tracks: u64) -> Answer {
                // SAFETY: the pointer and the length are those of one slice.
                unsafe { $check(stream.as_ptr(), stream.len(), rows, tracks) }
            }

            pub fn unpack(stream: &[u8], rows: u64, tracks: u64, out: &mut [u8]) -> Answer {
                // SAFETY: each pointer and length are those of one slice, and the two do not overlap.
                unsafe {
                    $unpack(
                        stream.as_ptr(),
                        stream.len(),
                        rows,
                        tracks,
                        out.as_mut_ptr(),
                        out.len(),
                    )
                }
            }

            pub fn pack(cells: &[u8], rows: u64, tracks: u64, out: &mut [u8]) -> Answer {
                // SAFETY: each pointer and length are those of one slice, and the two do not overlap.
                unsafe {
                    $pack(
                        cells.as_ptr(),
                        cells.len(),
                        rows,
                        tracks,
                        out.as_mut_ptr(),
                        out.len(),
                    )
                }
            }

            pub fn check_module(module: &[u8]) -> Verdict {
                // SAFETY: the pointer and the length are those of one slice.
                unsafe { $check_module(module.as_ptr(), module.len()) }
            }

            pub fn repack_module(module: &[u8], out: &mut [u8]) -> Answer {
                // SAFETY: each pointer and length are those of one slice, and the two do not overlap.
                unsafe {
                    $repack_module(module.as_ptr(), module.len(), out.as_mut_ptr(), out.len())
                }
            }

            pub fn replace_sample(
                module: &[u8],
                sample: usize,
                frames: &[u8],
                out: &mut [u8],
            ) -> ReplaceAnswer {
                // SAFETY: each pointer and length are those of one slice, and the output overlaps neither of the others.
                unsafe {
                    $replace_sample(
                        module.as_ptr(),
                        module.len(),
                        sample,
                        frames.as_ptr(),
                        frames.len(),
                        out.as_mut_ptr(),
                        out.len(),
                    )
                }
            }

            pub fn compare_modules(first: &[u8], second: &[u8], out: &mut [u8]) -> CompareAnswer {
                // SAFETY: each pointer and length are those of one slice, and the output overlaps neither of the others.
                unsafe {
                    $compare_modules(
                        first.as_ptr(),
                        first.len(),
                        second.as_ptr(),
                        second.len(),
                        out.as_mut_ptr(),
                        out.len(),
                    )
                }
            }
        }
    };
}

over_c!(
    plain,
    plain_check_pattern,
    plain_unpack_pattern,
    plain_pack_pattern,
    plain_check_module,
    plain_repack_module,
    plain_replace_sample,
    plain_compare_modules
);
over_c!(
    expert,
    expert_check_pattern,
    expert_unpack_pattern,
    expert_pack_pattern,
    expert_check_module,
    expert_repack_module,
    expert_replace_sample,
    expert_compare_modules
);

fn answer(result: Result<u64, pattern::Refusal>) -> Answer {
    match result {
        Ok(length) => Answer::written(length as usize),
        Err(refusal) => Answer::refused(refusal.number, refusal.place as usize),
    }
}

fn rust_check(stream: &[u8], rows: u64, tracks: u64) -> Answer {
    answer(pattern::check(stream, rows, tracks).map(|()| 0))
}

fn rust_unpack(stream: &[u8], rows: u64, tracks: u64, out: &mut [u8]) -> Answer {
    answer(pattern::unpack(stream, rows, tracks, out))
}

fn rust_pack(cells: &[u8], rows: u64, tracks: u64, out: &mut [u8]) -> Answer {
    answer(pattern::pack(cells, rows, tracks, out))
}

fn rust_check_module(module: &[u8]) -> Verdict {
    match module::check(module) {
        Ok(()) => Verdict {
            number: 0,
            place: 0,
        },
        Err(refusal) => Verdict {
            number: refusal.number,
            place: refusal.place,
        },
    }
}

fn rust_repack_module(module: &[u8], out: &mut [u8]) -> Answer {
    answer(repack::repack(module, out))
}

fn rust_replace_sample(
    module: &[u8],
    sample: usize,
    frames: &[u8],
    out: &mut [u8],
) -> ReplaceAnswer {
    let (number, place, record) = match replace::replace_sample(module, sample as u64, frames, out)
    {
        Ok(replace::Replaced { length, cleared }) => (0, 0, Replaced { length, cleared }),
        Err(refusal) => (refusal.number, refusal.place, Replaced::default()),
    };
    ReplaceAnswer {
        number,
        place,
        record,
    }
}

fn rust_compare_modules(first: &[u8], second: &[u8], out: &mut [u8]) -> CompareAnswer {
    let (number, place, entries) = match compare::compare(first, second, out) {
        Ok(entries) => (0, 0, entries),
        Err(refusal) => (refusal.number, refusal.place, 0),
    };
    CompareAnswer {
        number,
        place,
        record: Compared { entries },
    }
}
