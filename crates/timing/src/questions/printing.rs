//! Whether a printed pattern reads as its parts again, and prints as the same text.

use super::given::{Given, syntax};
use super::making::RandomSource;
use super::{Outcome, same};
use crate::calls::parts_of;
use std::alloc::{AllocError, Global};
use urlpattern::Error;
use urlpattern::component::generate_pattern_string;
use urlpattern::parser::{Part, PartModifier, PartType};

/// Prints the parts of a pattern, and reads and prints them again.
pub fn ask(maker: &mut RandomSource) -> Result<Outcome, Error> {
    let syntax = syntax(maker);
    let given = Given::new(maker, syntax)?;
    match parts_of(maker.alloc, &given.pattern, &given.options) {
        Ok(parts) => Ok(same(reads_back(maker.alloc, &given, &parts)?)),
        Err(error) => Outcome::of_error(&error),
    }
}

/// Whether printed parts read as these parts, with neighbouring plain texts joined, and print as
/// the same text.
fn reads_back(alloc: Global, given: &Given, parts: &[Part]) -> Result<bool, Error> {
    let printed = generate_pattern_string(alloc, parts, &given.options)?;
    let joined = match parts_of(alloc, &printed, &given.options) {
        Ok(joined) => joined,
        Err(Error::OutOfMemory) => return Err(Error::OutOfMemory),
        Err(_) => return Ok(false),
    };
    let again = generate_pattern_string(alloc, &joined, &given.options)?;
    Ok(
        again == printed
            && text_of_parts(alloc, &joined, false)? == text_of_parts(alloc, parts, true)?,
    )
}

/// The parts as one text, in which neighbouring plain texts are joined if `joins` is set.
fn text_of_parts(alloc: Global, parts: &[Part], joins: bool) -> Result<String, AllocError> {
    let mut text_of_parts = String::new(alloc);
    let mut is_after_plain = false;
    for part in parts {
        let is_plain = is_plain(part);
        if !(joins && is_plain && is_after_plain) {
            let Part {
                kind,
                modifier,
                name,
                prefix,
                suffix,
                ..
            } = part;
            write!(
                text_of_parts,
                "\n{kind:?} {modifier} {name:?} {prefix:?} {suffix:?} "
            )?;
        }
        text_of_parts.push_str(&part.value)?;
        is_after_plain = is_plain;
    }
    Ok(text_of_parts)
}

/// Whether a part is a fixed text without a modifier.
fn is_plain(part: &Part) -> bool {
    matches!(
        (&part.kind, &part.modifier),
        (PartType::FixedText, PartModifier::None)
    )
}
