//! Wrong libraries in place of a `Call` of writing.rs, to test that the comparison detects them. `tests_of_the_comparison!` defines the
//! tests that are the same for each call.

use crate::compare::GuardedOutput;
use crate::modules;
use crate::queries;
use crate::writing::{Call, Fill, WritingAnswer};
use interface::OUTPUT_TOO_SHORT;
use reference::generate::Random;

impl<A: WritingAnswer> Call<'_, A> {
    /// The number of modules for which the stand-in differs from the reference, and the number for which `check_properties` fails.
    pub fn differences(&self, library: Fill<A>) -> (usize, usize) {
        self.differences_on(&modules::some(200), library)
    }

    /// The same for these modules.
    pub fn differences_on(&self, modules: &[Vec<u8>], library: Fill<A>) -> (usize, usize) {
        let call = Call {
            library,
            queries: &queries::REFERENCE,
            ..*self
        };
        let count = |fails: &dyn Fn(&[u8], &mut Random) -> bool| {
            let fails = |module: &&Vec<u8>| fails(module, &mut Random::new(1));
            modules.iter().filter(fails).count()
        };
        (
            count(&|module, random| call.compare(module, random).is_err()),
            count(&|module, random| call.check_properties(module, random).is_err()),
        )
    }

    /// The stand-in is detected by comparison with the reference, and also without it.
    #[track_caller]
    pub fn notices(&self, library: Fill<A>) {
        let (differ, alone) = self.differences(library);
        assert!(differ >= 3 && alone >= 3, "only {differ} and {alone}");
    }

    /// The stand-in is detected only by comparison with the reference. Its output has the required properties but is not the expected one,
    /// or is wrong for an output of another length.
    #[track_caller]
    pub fn notices_beside_the_reference(&self, library: Fill<A>) {
        let (differ, alone) = self.differences(library);
        assert!(differ >= 3, "only {differ}");
        assert_eq!(alone, 0);
    }

    /// The reference, followed by a change of the bytes that it has written. The change depends on the module.
    pub fn changed<'s>(
        &'s self,
        change: impl Fn(&[u8], &mut [u8]) + 's,
    ) -> impl Fn(&[u8], &mut GuardedOutput) -> A + 's {
        let call: &Call<'s, A> = self;
        move |module, output| {
            let is = (call.reference)(module, output);
            let answer = is.answer();
            if answer.number == 0 {
                change(module, &mut output.slice()[..answer.length as usize]);
            }
            is
        }
    }

    /// The bytes of the reference with another answer. The answer is made from the correct one, the length of the output, and the length
    /// that is always enough for the module.
    pub fn answering<'s>(
        &'s self,
        change: impl Fn(A, usize, usize) -> A + 's,
    ) -> impl Fn(&[u8], &mut GuardedOutput) -> A + 's {
        let call: &Call<'s, A> = self;
        move |module, output| {
            let answer = (call.reference)(module, output);
            change(answer, output.slice().len(), (call.enough)(module.len()))
        }
    }

    pub fn finds_nothing_between_the_reference_and_itself(&self) {
        assert_eq!(self.differences(self.reference), (0, 0));
    }

    /// A library that writes nothing, and one that refuses everything.
    pub fn notices_idle_libraries(&self) {
        self.notices(&|module, output| {
            (self.reference)(module, &mut GuardedOutput::new(output.slice().len()))
        });
        self.notices(&|_, _| A::refused(2, 0));
    }

    /// The length that is always enough instead of the needed one: in the answer, and as a required length with either place.
    pub fn notices_another_needed_length(&self) {
        self.notices_beside_the_reference(&self.answering(|answer, _, enough| {
            match answer.answer().number == OUTPUT_TOO_SHORT {
                true => A::refused(OUTPUT_TOO_SHORT, enough),
                false => answer,
            }
        }));
        for wrong_place in [false, true] {
            self.notices_beside_the_reference(&|module, output| {
                let enough = (self.enough)(module.len());
                let needed = (self.reference)(module, &mut GuardedOutput::new(0));
                if needed.answer().number != OUTPUT_TOO_SHORT || output.slice().len() >= enough {
                    return (self.reference)(module, output);
                }
                match wrong_place {
                    true => A::refused(OUTPUT_TOO_SHORT, enough),
                    false => needed,
                }
            });
        }
    }

    /// The first or the last byte of the output is changed on a refusal: on 17, and on the refusals of the module.
    pub fn notices_writing_on_a_refusal(&self) {
        let writes = |last: bool, on: fn(u64) -> bool| {
            move |module: &[u8], output: &mut GuardedOutput| {
                let answer = (self.reference)(module, output);
                let byte = match last {
                    true => output.slice().last_mut(),
                    false => output.slice().first_mut(),
                };
                if let Some(byte) = byte.filter(|_| on(answer.answer().number)) {
                    *byte ^= 1;
                }
                answer
            }
        };
        for last in [false, true] {
            self.notices_beside_the_reference(&writes(last, |number| number == OUTPUT_TOO_SHORT));
            self.notices(&writes(last, |number| {
                number != 0 && number != OUTPUT_TOO_SHORT
            }));
        }
    }

    /// A byte after the needed length is changed, and bytes on both sides of the output.
    pub fn notices_bytes_that_should_stay(&self) {
        self.notices(&|module, output| {
            let answer = (self.reference)(module, output);
            let length = answer.answer().length as usize;
            if let Some(byte) = output.slice().get_mut(length) {
                *byte ^= u8::from(answer.answer().number == 0);
            }
            answer
        });
        let before: Fill<A> = &|module, output| {
            output.bytes[63] ^= 1;
            (self.reference)(module, output)
        };
        let after: Fill<A> = &|module, output| {
            let end = 64 + output.slice().len();
            output.bytes[end] ^= 1;
            (self.reference)(module, output)
        };
        for library in [before, after] {
            let (differ, alone) = self.differences(library);
            assert!(differ >= 100 && alone >= 100, "only {differ} and {alone}");
        }
    }

    /// 17 is returned before the module's own refusal if the output is shorter than these lengths.
    pub fn notices_another_order_of_refusals(&self) {
        for most in [1, 60, usize::MAX] {
            self.notices_beside_the_reference(&self.answering(move |answer, room, enough| {
                let needed = enough.min(most);
                match matches!(answer.answer().number, 0 | OUTPUT_TOO_SHORT) || room >= needed {
                    true => answer,
                    false => A::refused(OUTPUT_TOO_SHORT, needed),
                }
            }));
        }
    }

    /// The returned length is wrong.
    pub fn notices_another_length(&self) {
        self.notices(&self.answering(|is, _, _| {
            let answer = is.answer();
            is.with_length(answer.length.saturating_sub(u64::from(answer.number == 0)))
        }));
    }
}

/// The tests that each comparison has.
#[macro_export]
macro_rules! tests_of_the_comparison {
    ($call:expr) => {
        #[test]
        fn nothing_between_the_reference_and_itself() {
            $call.finds_nothing_between_the_reference_and_itself();
        }

        #[test]
        fn stand_ins() {
            $call.notices_idle_libraries();
        }

        #[test]
        fn another_needed_length() {
            $call.notices_another_needed_length();
        }

        #[test]
        fn writing_on_a_refusal() {
            $call.notices_writing_on_a_refusal();
        }

        #[test]
        fn bytes_that_should_stay() {
            $call.notices_bytes_that_should_stay();
        }

        #[test]
        fn another_order_of_refusals() {
            $call.notices_another_order_of_refusals();
        }

        #[test]
        fn another_length() {
            $call.notices_another_length();
        }
    };
}
