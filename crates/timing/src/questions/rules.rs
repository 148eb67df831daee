//! Whether the results of comparing two patterns hold for texts: that one covers the other, and
//! that they overlap.

use super::Outcome;
use super::making::RandomSource;
use std::alloc::{AllocError, Global};
use urlpattern::regexp::PatternRegexp;
use urlpattern::rules::{PatternCovering, PatternOverlap, PatternParts};
use urlpattern::{
    ComponentName, Eight, Error, GivenGroup, UrlPattern, UrlPatternInit, UrlPatternOptions,
    pathname_texts,
};

/// The pieces of path patterns.
const PIECES: [&str; 20] = [
    "/a", "/b", "/:x", "/:y", "/*", "{/:z}?", "{a}*", "{b:w/}+", "{/a}+", "*", ".", "-", "b", "é", "/:u?", "/:v*",
    "/:t+", "{ab}*", "{/*}?", "/:s.a",
];

/// The pieces of texts.
const LETTERS: [&str; 10] = ["a", "b", "ab", "/", "/a", "/b", ".", "-", "é", "c"];

/// The names in patterns. The name of a wildcard is a number.
const NAMES: [&str; 12] = ["x", "y", "z", "w", "u", "v", "t", "s", "0", "1", "2", "3"];

/// The number of texts for a pair.
const TEXTS: usize = 100;

/// A pattern for paths, compiled, and its parts.
#[derive(Drop)]
struct Made {
    pattern: UrlPattern<PatternRegexp>,
    parts: PatternParts,
}

/// The init of a path.
fn init_of(alloc: Global, pathname: &str) -> Result<UrlPatternInit, AllocError> {
    let name = ComponentName::Pathname;
    let text = |other: ComponentName| -> Result<Option<String>, AllocError> {
        if other == name {
            return Ok(Some(String::from_str(alloc, pathname)?));
        }
        Ok(None)
    };
    Ok(UrlPatternInit::from_eight(Eight::try_from_fn(text)?, None))
}

/// A random pattern, or the reason why it is rejected.
fn make_pattern(maker: &mut RandomSource) -> Result<Made, Error> {
    let alloc = maker.alloc;
    let text = maker.text(&PIECES, 6)?;
    let options = UrlPatternOptions::default();
    let parts = UrlPattern::<PatternRegexp>::parse(alloc, init_of(alloc, &text)?, options)?.into_parts();
    let options = UrlPatternOptions::default();
    let pattern = UrlPattern::parse(alloc, init_of(alloc, &text)?, options)?;
    Ok(Made {
        pattern,
        parts: parts.ok_or(Error::OutOfMemory)?,
    })
}

/// Compares two patterns, and tests the results with texts: whether one covers the other, and
/// whether they overlap.
pub fn ask(maker: &mut RandomSource) -> Result<Outcome, Error> {
    match make_pattern(maker) {
        Ok(covering) => {
            let outcome = ask_about(maker, &covering);
            drop(covering);
            outcome
        }
        Err(error) => Outcome::of_error(&error),
    }
}

/// Whether this pattern covers a random one.
fn ask_about(maker: &mut RandomSource, covering: &Made) -> Result<Outcome, Error> {
    match make_pattern(maker) {
        Ok(asked) => {
            let outcome = try_texts(maker, covering, &asked);
            drop(asked);
            outcome
        }
        Err(error) => Outcome::of_error(&error),
    }
}

/// Tests the results of comparing two patterns with texts.
fn try_texts(maker: &mut RandomSource, covering: &Made, asked: &Made) -> Result<Outcome, Error> {
    let (covers, is_parting) = covering_of(maker.alloc, covering, asked)?;
    let (apart, is_common) = overlap_of(maker.alloc, covering, asked)?;
    if !is_parting || !is_common {
        return Ok(Outcome::Differs);
    }
    for _ in 0..TEXTS {
        let text = text_for(maker, asked)?;
        let (by_covering, by_asked) = matches_of(maker.alloc, covering, asked, &text)?;
        if by_asked && (covers && !by_covering || apart && by_covering) {
            return Ok(Outcome::Differs);
        }
    }
    Ok(Outcome::Same)
}

/// Whether one covers the other, and whether the texts that show the opposite, if there are any, do
/// so.
fn covering_of(alloc: Global, covering: &Made, asked: &Made) -> Result<(bool, bool), Error> {
    let found = covering.parts.covers(alloc, &asked.parts)?;
    let answer = match &found {
        PatternCovering::Covered => Ok((true, true)),
        PatternCovering::Unknown(_, _) => Ok((false, true)),
        PatternCovering::NotCovered(parting) => {
            match parting.texts.get(ComponentName::Pathname) {
                Some(path) => match matches_of(alloc, covering, asked, path) {
                    Ok(found) => Ok((false, found == (false, true))),
                    Err(error) => Err(error),
                },
                None => Ok((false, true)),
            }
        }
    };
    drop(found);
    answer
}

/// Whether no text is matched by both, and whether the texts that show the opposite, if there are
/// any, do so.
fn overlap_of(alloc: Global, covering: &Made, asked: &Made) -> Result<(bool, bool), Error> {
    let found = covering.parts.overlaps(alloc, &asked.parts)?;
    let answer = match &found {
        PatternOverlap::Apart => Ok((true, true)),
        PatternOverlap::Unknown(_, _) => Ok((false, true)),
        PatternOverlap::Common(texts) => match texts.get(ComponentName::Pathname) {
            Some(path) => match matches_of(alloc, covering, asked, path) {
                Ok(found) => Ok((false, found == (true, true))),
                Err(error) => Err(error),
            },
            None => Ok((false, true)),
        },
    };
    drop(found);
    answer
}

/// Whether each of two patterns matches a path.
fn matches_of(
    alloc: Global,
    covering: &Made,
    asked: &Made,
    path: &str,
) -> Result<(bool, bool), Error> {
    let texts = pathname_texts(path);
    let by_covering = covering.pattern.test_texts(alloc, &texts)?;
    Ok((by_covering, asked.pattern.test_texts(alloc, &texts)?))
}

/// A path that the asked pattern matches, made from random captures, or else any path.
fn text_for(maker: &mut RandomSource, asked: &Made) -> Result<String, Error> {
    let alloc = maker.alloc;
    let mut values = Vec::new(alloc);
    for _ in NAMES {
        values.push(maker.text(&LETTERS, 3)?)?;
    }
    let mut groups = Vec::new(alloc);
    for (name, value) in NAMES.iter().zip(&values) {
        let group: GivenGroup<'_> = (ComponentName::Pathname, *name, value.as_str());
        groups.push(group)?;
    }
    match asked.pattern.generate(alloc, ComponentName::Pathname, &groups) {
        Ok(text) => Ok(text),
        Err(_) => Ok(maker.text(&LETTERS, 7)?),
    }
}
