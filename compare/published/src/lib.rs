//! The published sources, built as they are, with stand-ins for the modules that are not at hand.

#![allow(dead_code, unused_imports, unexpected_cfgs)]

extern crate alloc;

mod reader;
mod stand_ins;
mod text;

pub use reader::{edited, kinds, parse_state, read_whole, Reader};
pub use stand_ins::unicode::{use_set, Ranges};
use stand_ins::{message, resolve, unist, ParseOptions};

include!(concat!(env!("OUT_DIR"), "/mounted.rs"));

/// A state of a construct that is left out: nothing here leads to it.
macro_rules! absent {
    ($function:ident) => {
        pub fn $function(_: &mut crate::tokenizer::Tokenizer) -> crate::state::State {
            unreachable!("a construct that is left out")
        }
    };
}

/// A state in use: counted, and put off when the allowance is made.
#[cfg(feature = "counted")]
macro_rules! state {
    ($function:ident $name:ident $answers:path) => {
        pub fn $function(tokenizer: &mut crate::tokenizer::Tokenizer) -> crate::state::State {
            match crate::reader::meter(tokenizer, crate::state::Name::$name) {
                Some(paused) => paused,
                None => $answers(tokenizer),
            }
        }
    };
}

#[cfg(not(feature = "counted"))]
macro_rules! state {
    ($function:ident $name:ident $answers:path) => {
        pub use $answers as $function;
    };
}

/// What `state.rs` calls. Each line is `absent!` or `state!`.
pub mod construct {
    include!(concat!(env!("OUT_DIR"), "/construct.rs"));
}
