//! Our own small stand-ins for the modules that the published sources lean on and that are not at hand.

/// Options: only the fields that the sources at hand read.
#[derive(Debug)]
pub struct ParseOptions {
    pub constructs: Constructs,
    pub mdx_esm_parse: Option<()>,
    pub mdx_expression_parse: Option<()>,
}

#[derive(Debug)]
pub struct Constructs {
    pub gfm_autolink_literal: bool,
    pub gfm_task_list_item: bool,
}

pub static OPTIONS: ParseOptions = ParseOptions {
    constructs: Constructs {
        gfm_autolink_literal: true,
        gfm_task_list_item: false,
    },
    mdx_esm_parse: None,
    mdx_expression_parse: None,
};

pub mod message {
    /// Why a run broke off: the state call that is due.
    ///
    /// The published engine leaves its loop on `State::Error` and changes nothing on the way, which is how a
    /// pause is made without a change to it.
    #[derive(Clone, Debug, PartialEq)]
    pub struct Message {
        pub due: crate::state::Name,
    }
}

pub mod resolve {
    use crate::message::Message;
    use crate::subtokenize::Subresult;
    use crate::tokenizer::Tokenizer;

    /// Resolvers: only the one of the literal links is at hand.
    #[derive(Clone, Copy, Debug, PartialEq)]
    pub enum Name {
        GfmAutolinkLiteral,
    }

    pub fn call(tokenizer: &mut Tokenizer, name: Name) -> Result<Option<Subresult>, Message> {
        match name {
            Name::GfmAutolinkLiteral => crate::gfm_autolink_literal::resolve(tokenizer),
        }
        Ok(None)
    }
}

pub mod unist {
    pub struct Point {
        pub line: usize,
        pub column: usize,
        pub offset: usize,
    }
}

pub mod location {
    #[derive(Debug)]
    pub struct Location;

    impl Location {
        pub fn new(_: &[u8]) -> Location {
            Location
        }
    }
}

pub mod skip {
    use crate::event::{Event, Name};

    pub fn opt_back(_: &[Event], _: usize, _: &[Name]) -> usize {
        unreachable!("linked content is left out")
    }
}

pub mod unicode {
    use std::cell::Cell;

    /// Ranges of a punctuation set: first and last of each, in rising order.
    pub type Ranges = &'static [(u32, u32)];

    thread_local! {
        static RANGES: Cell<Ranges> = const { Cell::new(&[]) };
    }

    /// The set that stands in for the published table on this thread from now on.
    pub fn use_set(ranges: Ranges) {
        RANGES.with(|r| r.set(ranges));
    }

    /// Has the question that is asked of the published table.
    pub struct Punctuation;

    pub static PUNCTUATION: Punctuation = Punctuation;

    impl Punctuation {
        pub fn contains(&self, char: &char) -> bool {
            let value = *char as u32;
            RANGES.with(|r| {
                let ranges = r.get();
                let rank = ranges.partition_point(|(_, last)| *last < value);
                rank < ranges.len() && ranges[rank].0 <= value
            })
        }
    }
}
