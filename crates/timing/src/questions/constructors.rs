//! Whether the two calls that split a constructor string agree, with at most two turns for each
//! token.

use super::making::RandomSource;
use super::{Outcome, given, same};
use regex::Regex;
use std::alloc::Global;
use url::Url;
use urlpattern::tokenizer::{TokenizePolicy, tokenize};
use urlpattern::{Error, UrlPatternInit};

/// The init of a constructor string, with the number of turns.
type Counted = Result<(UrlPatternInit, usize), Error>;

/// Splits a constructor string by both calls.
pub fn ask(maker: &mut RandomSource) -> Result<Outcome, Error> {
    let alloc = maker.alloc;
    let (string, _) = given::constructor_string(maker)?;
    let base = parsed(alloc, given::base(maker))?;
    let counted: Counted = UrlPatternInit::parse_constructor_string_counted::<Regex>(
        alloc,
        &string,
        base.clone()?,
    );
    let plain = UrlPatternInit::parse_constructor_string::<Regex>(alloc, &string, base);
    let outcome = match (&counted, &plain) {
        (Ok((init, turns)), Ok(other)) => {
            Ok(same(init == other && are_few(alloc, &string, *turns)?))
        }
        (Err(error), Err(other)) => refused(alloc, error, other),
        _ => Ok(Outcome::Differs),
    };
    drop(plain);
    drop(counted);
    outcome
}

/// Parses a URL, if there is one.
fn parsed(alloc: Global, base: Option<&str>) -> Result<Option<Url>, Error> {
    match base {
        Some(base) => Ok(Some(Url::parse(alloc, base).map_err(Error::Url)?)),
        None => Ok(None),
    }
}

/// Whether there are at most two turns for each token.
fn are_few(alloc: Global, string: &str, turns: usize) -> Result<bool, Error> {
    let tokens = tokenize(alloc, string, TokenizePolicy::Lenient)?;
    Ok(turns / 2 < tokens.len() || turns == 2 * tokens.len())
}

/// The outcome for two errors.
fn refused(alloc: Global, error: &Error, other: &Error) -> Result<Outcome, Error> {
    if format!(in alloc; "{error}")? != format!(in alloc; "{other}")? {
        return Ok(Outcome::Differs);
    }
    Outcome::of_error(error)
}
