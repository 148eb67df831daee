//! A regular expression engine that treats all texts alike.

use std::alloc::Global;
use urlpattern::RegexSyntax;
use urlpattern::error::{OutOfMemory, RegExpError};
use urlpattern::regexp::RegExp;

/// The captures that an engine returns for each text.
pub type Captures = &'static [Option<&'static str>];

/// An engine that accepts or rejects each expression, and returns the same captures for all texts.
/// The captures need not be slices of the texts. A value without captures runs out of memory when
/// it is called.
#[derive(Debug, Drop)]
pub struct Stubborn<const TAKES_TEXTS: bool, const HAS_MEMORY: bool> {
    pub text: String,
    pub captures: Option<Captures>,
}

/// An engine that keeps the text of each expression. A value that it compiles runs out of memory
/// when it is called.
pub type KeptText = Stubborn<true, true>;

/// An engine that rejects each expression.
pub type Refusing = Stubborn<false, true>;

/// An engine that runs out of memory for each expression.
pub type Starved = Stubborn<false, false>;

impl<const TAKES_TEXTS: bool, const HAS_MEMORY: bool> RegExp for Stubborn<TAKES_TEXTS, HAS_MEMORY> {
    ghost use Rattle.std.specs.Prelude.{◌≡◌, ⊤, false, map, option_map};
    ghost use Rattle.urlpattern.specs.Text.{option_text};
    ghost use Rattle.urlpattern.specs.RegexSyntax.TheVariants.{Rust};
    ghost use Rattle.urlpattern.specs.Text.{text_of};

    ghost syntax_of = { Rust };

    ghost IsMade = { λ engine regexp flags. text_of engine.text ≡ regexp };

    ghost MayReject = { λ regexp flags force_eval. ⊤ };

    ghost answer = { λ engine text. option_map (λ captures. map option_text captures.now) engine.captures };

    ghost text_made_of = { λ engine. text_of engine.text };

    ghost case_honoured = { false };

    fn syntax() -> RegexSyntax {
        RegexSyntax::Rust
    }

    fn parse(
        alloc: Global,
        pattern: &str,
        _flags: &str,
        _force_eval: bool,
    ) -> Result<Self, RegExpError> {
        match (TAKES_TEXTS, HAS_MEMORY) {
            (true, _) => Ok(Stubborn {
                text: String::from_str(alloc, pattern)?,
                captures: None,
            }),
            (false, true) => Err(RegExpError::Pattern),
            (false, false) => Err(RegExpError::OutOfMemory),
        }
    }

    fn matches<'a>(
        &self,
        alloc: Global,
        _text: &'a str,
    ) -> Result<Option<Vec<Option<&'a str>>>, OutOfMemory> {
        match self.captures {
            Some(captures) => Ok(Some(captures.to_vec(alloc)?)),
            None => Err(OutOfMemory),
        }
    }

    fn pattern_string(&self) -> &str {
        self.text.as_str()
    }

    fn honours_case() -> bool {
        false
    }
}
