//! Claims about kept names.

use crate::kept::{Entry, State};
use crate::refusal::{Answer, Reason, Refusal};

/// What a claim is handed: no rows, no directory, no cursors.
#[derive(Clone, Copy)]
pub struct KeptText<'a> {
    pub text: &'a [u8],
    pub names: &'a [u32],
    pub state: &'a [u32; 4],
}

pub fn claim(number: u32, claimed: &[u8], kept: KeptText<'_>) -> Result<Answer, Refusal> {
    let state = State::from_numbers(*kept.state);
    state.judge_names(kept.text, kept.names)?;
    if number >= state.kept {
        return Err(Reason::NotKept.at(number));
    }
    let used = &kept.text[..state.text_used as usize];
    let text = Entry::of(kept.names, number).text(used);
    let text = text.map_err(|reason| reason.at(number))?;
    Ok(Answer::Claimed(text == claimed))
}
