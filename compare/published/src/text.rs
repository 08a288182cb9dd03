//! The four text states (docs/ENGINE.md, section 6), which stand in for the published text construct.
//!
//! `state.rs` has no names for them; they answer to names of states that are left out:
//! Before is `TextBefore`, Line `DataAtBreak`, Data `DataStart` and Inside `DataInside`.

use crate::event::Name;
use crate::state::{Name as StateName, State};
use crate::tokenizer::Tokenizer;

pub fn before(tokenizer: &mut Tokenizer) -> State {
    match tokenizer.current {
        None => State::Ok,
        Some(b'H' | b'h') => try_link(tokenizer, StateName::GfmAutolinkLiteralProtocolStart),
        Some(b'W' | b'w') => try_link(tokenizer, StateName::GfmAutolinkLiteralWwwStart),
        Some(b'\n') => {
            tokenizer.enter(Name::LineEnding);
            tokenizer.consume();
            State::Next(StateName::DataAtBreak)
        }
        Some(_) => State::Retry(StateName::DataStart),
    }
}

fn try_link(tokenizer: &mut Tokenizer, start: StateName) -> State {
    tokenizer.attempt(State::Next(StateName::TextBefore), State::Next(StateName::DataStart));
    State::Retry(start)
}

pub fn line(tokenizer: &mut Tokenizer) -> State {
    tokenizer.exit(Name::LineEnding);
    State::Retry(StateName::TextBefore)
}

pub fn data(tokenizer: &mut Tokenizer) -> State {
    tokenizer.enter(Name::Data);
    tokenizer.consume();
    State::Next(StateName::DataInside)
}

pub fn inside(tokenizer: &mut Tokenizer) -> State {
    if matches!(tokenizer.current, None | Some(b'\n' | b'H' | b'h' | b'W' | b'w')) {
        tokenizer.exit(Name::Data);
        State::Retry(StateName::TextBefore)
    } else {
        tokenizer.consume();
        State::Next(StateName::DataInside)
    }
}
