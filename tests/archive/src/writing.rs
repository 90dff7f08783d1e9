//! Tests for a call that computes bytes from a module and writes them into an output. Each such call is one `Call` (repacking.rs,
//! all_records.rs, replacing.rs, comparing.rs). The code here is common to all of them.
//!
//! A call is compared with the reference, with outputs of every length around the needed length and around the module's length. After a
//! refusal the output is unchanged. After success only the written bytes differ. The memory on both sides of the output and the module are
//! never changed. `tests_of_a_call!` defines the tests that each call has, on typed, generated and damaged modules.
//! `tests_of_the_comparison!` in stand_ins.rs defines tests which show that a wrong library is detected. A new call needs a `Call`, two
//! modules with their expected bytes, these two macros, and tests of its own for its special cases. A call with further arguments has a
//! `Call` for each choice of them, and uses `tests_on_modules!` with a function that chooses.

use std::collections::BTreeSet;
use std::fmt::Debug;

use crate::compare::{rooms, same_answer, same_bytes, same_output, with_module, GuardedOutput};
use crate::large::{filled_up, MOST};
use crate::modules;
use crate::queries::Queries;
use interface::{Answer, ModuleAnswer, OUTPUT_TOO_SHORT};
use reference::draft::Tune;
use reference::generate::Random;

/// The answer of a call that fills an output: number, place and length, and for some calls more.
pub trait WritingAnswer: Copy + Debug + PartialEq {
    /// The number, the place and the length.
    fn answer(self) -> Answer;

    /// The same answer with another length.
    fn with_length(self, length: u64) -> Self;

    /// A refusal. Everything else in the answer is 0.
    fn refused(number: u64, place: usize) -> Self;
}

impl WritingAnswer for Answer {
    fn answer(self) -> Answer {
        self
    }

    fn with_length(self, length: u64) -> Answer {
        Answer { length, ..self }
    }

    fn refused(number: u64, place: usize) -> Answer {
        Answer::refused(number, place)
    }
}

/// A call: it computes bytes from a module and writes them into the output. Further arguments are captured by the closure.
pub type Fill<'a, A = Answer> = &'a dyn Fn(&[u8], &mut GuardedOutput) -> A;

/// The required properties of the bytes that a call writes, independent of the reference. The arguments are the module, the answer, and the
/// bytes.
pub type Properties<'a, A = Answer> =
    &'a dyn Fn(&Call<A>, &[u8], A, &[u8], &mut Random) -> Result<(), String>;

#[derive(Clone, Copy)]
pub struct Call<'a, A = Answer> {
    pub name: &'a str,
    /// The call of the library under comparison, and the queries of that library.
    pub library: Fill<'a, A>,
    pub queries: &'a Queries,
    pub reference: Fill<'a, A>,
    /// The length of an output that is always enough for a module of this length.
    pub enough: &'a dyn Fn(usize) -> usize,
    /// The answer of a query that refuses exactly the modules that the call refuses.
    pub refusal: &'a dyn Fn(&Queries, &[u8]) -> ModuleAnswer,
    pub properties: Properties<'a, A>,
}

impl<A: WritingAnswer> Call<'_, A> {
    /// All checks of a call for one module. The error message has the difference, and the whole module if it is short.
    pub fn agrees(&self, module: &[u8], random: &mut Random) -> Result<(), String> {
        self.compare(module, random)?;
        self.check_properties(module, random)
    }

    /// The library agrees with the reference for outputs of several lengths.
    pub fn compare(&self, module: &[u8], random: &mut Random) -> Result<(), String> {
        let needed = match (self.reference)(module, &mut GuardedOutput::new(0)).answer() {
            answer if answer.number == OUTPUT_TOO_SHORT => answer.place as usize,
            _ => module.len(),
        };
        for room in rooms(needed, module.len(), random) {
            self.into_room(module, room)?;
        }
        Ok(())
    }

    /// The same for one length of the output.
    pub fn into_room(&self, module: &[u8], room: usize) -> Result<(), String> {
        self.check_output(module, room, |output| (self.reference)(module, output))
    }

    /// For an output of one length the library returns and writes what is expected, and the module is unchanged.
    fn check_output(
        &self,
        module: &[u8],
        room: usize,
        expected: impl FnOnce(&mut GuardedOutput) -> A,
    ) -> Result<(), String> {
        let stored = module.to_vec();
        let is = |output: &mut GuardedOutput| (self.library)(module, output);
        same_output(self.name, room, is, expected)
            .and_then(|()| match module == stored {
                true => Ok(()),
                false => Err("the module is changed".to_string()),
            })
            .map_err(|what| with_module(format!("{what} (with room {room})"), &stored))
    }

    /// The properties of the library without the reference, checked with its own queries: a refusal equals that of a query, only the
    /// written bytes of an output that is long enough change, and these bytes have the required properties.
    pub fn check_properties(&self, module: &[u8], random: &mut Random) -> Result<(), String> {
        let written = self
            .written(module)
            .map_err(|what| with_module(what, module))?;
        match written {
            Some((answer, bytes)) => (self.properties)(self, module, answer, &bytes, random)
                .map_err(|what| with_module(what, module)),
            None => Ok(()),
        }
    }

    /// The answer and the written bytes, if the call is not refused.
    fn written(&self, module: &[u8]) -> Result<Option<(A, Vec<u8>)>, String> {
        let room = (self.enough)(module.len());
        let (mut output, mut expected_output) =
            (GuardedOutput::new(room), GuardedOutput::new(room));
        let answer = (self.library)(module, &mut output);
        let length = answer.answer().length;
        let refusal = (self.refusal)(self.queries, module);
        match refusal.number {
            0 => same_answer(self.name, answer.answer(), Answer::written(length as usize))?,
            number => same_answer(
                self.name,
                answer,
                A::refused(number, refusal.place as usize),
            )?,
        }
        let Some(bytes) = output.slice().get(..length as usize) else {
            return Err(format!("{length} bytes are written, of {room}"));
        };
        let bytes = bytes.to_vec();
        expected_output.slice()[..bytes.len()].copy_from_slice(&bytes);
        same_bytes(self.name, &output, &expected_output)?;
        Ok((refusal.number == 0).then_some((answer, bytes)))
    }

    /// The library answers this and writes these bytes, into outputs around their length and into one that is always enough. A shorter
    /// output is refused with 17. The reference does the same.
    #[track_caller]
    pub fn answers(&self, module: &[u8], answer: A, bytes: &[u8]) {
        let (needed, enough) = (bytes.len(), (self.enough)(module.len()));
        let shorter = needed.saturating_sub(1);
        let rooms = [0, shorter, needed, needed + 1, enough, enough + 1];
        for room in BTreeSet::from(rooms) {
            self.check_output(module, room, |output| answering(answer, bytes, output))
                .unwrap();
        }
        for room in BTreeSet::from([needed + 3, enough]) {
            self.into_room(module, room).unwrap();
        }
    }

    /// The library refuses the module for outputs of all lengths, and writes nothing.
    #[track_caller]
    pub fn refuses(&self, module: &[u8], number: u64, place: usize) {
        let length = module.len();
        for room in [0, 1, length - 1, length, (self.enough)(length)] {
            self.check_output(module, room, |_| A::refused(number, place))
                .unwrap();
        }
    }
}

impl Call<'_> {
    /// The library writes these bytes, as in `answers`.
    #[track_caller]
    pub fn gives(&self, module: &[u8], bytes: &[u8]) {
        self.answers(module, Answer::written(bytes.len()), bytes);
    }

    /// For a module of the maximum length these bytes are written. With one more byte it is refused with 1, and nothing is written.
    pub fn one_byte_too_many(&self, bytes: impl Fn(&[u8]) -> Vec<u8>) {
        let mut module = filled_up(Tune::default().draft(), MOST);
        self.gives(&module, &bytes(&module));
        module.push(0);
        self.refuses(&module, 1, 0);
    }

    /// The module can be at any address.
    pub fn at_every_alignment(&self, module: &[u8], bytes: &[u8]) {
        modules::at_every_alignment(module, |module, _| {
            self.gives(module, bytes);
            Ok(())
        });
    }
}

/// A correct call whose result is these bytes.
pub fn writing(bytes: &[u8], output: &mut GuardedOutput) -> Answer {
    answering(Answer::written(bytes.len()), bytes, output)
}

/// The same with this answer on success.
pub fn answering<A: WritingAnswer>(answer: A, bytes: &[u8], output: &mut GuardedOutput) -> A {
    match output.slice().get_mut(..bytes.len()) {
        Some(out) => {
            out.copy_from_slice(bytes);
            answer
        }
        None => A::refused(OUTPUT_TOO_SHORT, bytes.len()),
    }
}

/// A call writes these bytes into outputs around their length. Shorter outputs are refused with 17.
#[track_caller]
pub fn writes_around(bytes: &[u8], call: impl Fn(&mut GuardedOutput) -> Answer) {
    for room in [0, bytes.len() - 1, bytes.len(), bytes.len() + 1] {
        same_output("it", room, &call, |output| writing(bytes, output)).unwrap();
    }
}

/// A call writes these bytes into outputs of every length and every alignment.
#[track_caller]
pub fn writes(bytes: &[u8], call: impl Fn(&mut GuardedOutput) -> Answer) {
    for shift in 0..64 {
        for room in 0..bytes.len() + 10 {
            let (mut is, mut expected) = (
                GuardedOutput::shifted(shift, room),
                GuardedOutput::shifted(shift, room),
            );
            assert_eq!(call(&mut is), writing(bytes, &mut expected));
            assert_eq!(is.bytes, expected.bytes, "shift {shift}, room {room}");
        }
    }
}

/// NULL for the output and for the module if the length is 0. The module needs an output of `needed` bytes, and its last chunk has two
/// bytes of data.
pub fn memory_of_no_bytes(
    module: &[u8],
    needed: usize,
    into_null: impl Fn(&[u8]) -> Answer,
    of_null: impl Fn(&mut [u8]) -> Answer,
) {
    let (cut, last_chunk) = (&module[..module.len() - 1], module.len() - 10);
    assert_eq!(into_null(module), Answer::refused(17, needed));
    assert_eq!(into_null(cut), Answer::refused(4, last_chunk));
    assert_eq!(into_null(&[]), Answer::refused(2, 0));
    let mut out = [0xAA; 200];
    assert_eq!(of_null(&mut out), Answer::refused(2, 0));
    assert_eq!(of_null(&mut []), Answer::refused(2, 0));
    assert_eq!(out, [0xAA; 200]);
}

/// The tests that each call has. `typed` has modules and their expected bytes; the first module ends with a chunk of two bytes. For each
/// module in `cut`, the tests use every prefix, the module without each byte, and the module with an extra byte.
#[macro_export]
macro_rules! tests_of_a_call {
    (
        call: $call:expr,
        typed: $typed:expr,
        into null: $into_null:expr,
        of null: $of_null:expr,
        cut: $cut:expr,
        valid modules: $valid:expr,
        damaged modules: $damaged:expr,
    ) => {
        fn agrees(module: &[u8], random: &mut reference::generate::Random) -> Result<(), String> {
            $call.agrees(module, random)
        }

        #[test]
        fn outputs_of_every_length_and_alignment() {
            for (module, bytes) in $typed {
                $crate::writing::writes(bytes, |output| ($call.library)(module, output));
            }
        }

        #[test]
        fn modules_at_every_alignment() {
            for (module, bytes) in $typed {
                $call.at_every_alignment(module, bytes);
            }
        }

        #[test]
        fn memory_of_no_bytes() {
            let (module, bytes) = $typed[0];
            $crate::writing::memory_of_no_bytes(module, bytes.len(), $into_null, $of_null);
        }

        $crate::tests_on_modules! {
            agrees: agrees,
            cut: $cut,
            valid modules: $valid,
            damaged modules: $damaged,
        }
    };
}

/// The tests of a call on modules of the corpus, sample files, and generated and damaged modules. `agrees` tests the call on one module.
#[macro_export]
macro_rules! tests_on_modules {
    (
        agrees: $agrees:expr,
        cut: $cut:expr,
        valid modules: $valid:expr,
        damaged modules: $damaged:expr,
    ) => {
        #[test]
        fn the_corpus() {
            $crate::modules::corpus($agrees, 1901);
        }

        #[test]
        fn the_sample_files() {
            $crate::modules::sample_files($agrees);
        }

        #[test]
        fn valid_modules() {
            $crate::modules::valid($agrees, $valid, 3);
        }

        #[test]
        fn damaged_modules() {
            $crate::modules::damaged_parts($agrees, $damaged, 3);
        }

        #[test]
        fn damaged_bytes() {
            $crate::modules::damaged_bytes($agrees, $damaged, 3);
        }

        #[test]
        fn every_cut() {
            for module in $cut {
                $crate::modules::every_cut(&module, $agrees);
            }
        }

        #[test]
        fn any_bytes() {
            $crate::modules::any_bytes($agrees, 10_000);
        }
    };
}
