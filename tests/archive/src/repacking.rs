//! Repacking a whole module, tested by writing.rs.

use crate::compare::{answer, same_answer, GuardedOutput};
use crate::queries;
use crate::records::show_the_same;
use crate::writing::Call;
use interface::Answer;
use reference::generate::Random;
use reference::repack::repack;

/// libdbm0.a against the reference.
pub const REPACK: Call<'static> = Call {
    name: "repack",
    library: &|module, output| interface::repack(module, output.slice()),
    queries: &queries::ARCHIVE,
    reference: &|module, output| answer(repack(module, output.slice())),
    enough: &|length| length,
    refusal: &queries::refusal,
    properties: &keeps_answers,
};

/// The repacked module is accepted, its queries return the same answers, and repacking it again does not change it.
fn keeps_answers(
    call: &Call,
    module: &[u8],
    _: Answer,
    repacked: &[u8],
    random: &mut Random,
) -> Result<(), String> {
    show_the_same(call.queries, repacked, module, random)?;
    let mut again = GuardedOutput::new(repacked.len());
    let is = (call.library)(repacked, &mut again);
    same_answer("repack", is, Answer::written(repacked.len()))?;
    match again.slice() == repacked {
        true => Ok(()),
        false => Err("it does not repack to itself".to_string()),
    }
}
