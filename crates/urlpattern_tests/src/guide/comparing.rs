//! Comparing: whether a pattern covers another, whether two have a URL in common, which rule of a
//! list is dead, and what a change of a rule lets in. A pattern as one text, and a hash of its
//! parts.

use crate::guide::{expect_line, line_of, pattern, text};
use std::alloc::Global;
use std::hash::{DefaultHasher, Hasher};
use std::test::Fail;
use urlpattern::rules::{
    Common, PatternAutomata, PatternCovering, PatternOverlap, PatternParts, Reach, USUAL_LIMITS,
    find_common,
};
use urlpattern::{Error, UrlPatternList};

/// Whether a pattern covers another, in words; if not, with a text of a component that only the
/// other matches.
fn covers_line(alloc: Global) -> Result<String, Error> {
    let users = pattern(alloc, "https://example.com/users/:id")?;
    let pages = pattern(alloc, "https://example.com/users/*")?;
    let covering = match users.covers(alloc, &pages) {
        Ok(covering) => covering,
        Err(_) => return Err(Error::OutOfMemory),
    };
    let line = covering_words(alloc, &covering);
    drop(covering);
    line
}

/// Whether a pattern covers another, in words.
fn covering_words(alloc: Global, covering: &PatternCovering) -> Result<String, Error> {
    // docs: covering
    match covering {
        PatternCovering::Covered => Ok(format!(in alloc; "covered")?),
        PatternCovering::NotCovered(parting) => {
            // docs: parting
            let component = parting.component;
            let text = parting.texts.get(component);
            // docs: end
            match text {
                Some(text) => Ok(format!(in alloc; "not covered: {component} `{text}`")?),
                None => Ok(format!(in alloc; "not covered: {component}")?),
            }
        }
        PatternCovering::Unknown(component, _) => Ok(format!(in alloc; "unknown: {component}")?),
    }
    // docs: end
}

#[test]
fn whether_a_pattern_covers_another(rt: HostRuntime) -> Result<(), Fail> {
    let line = covers_line(rt.alloc());
    expect_line(&rt, line, "not covered: pathname `/users/`")?;
    Ok(())
}

/// Whether two patterns have a URL in common, in words; if so, with the path of one.
fn overlaps_line(alloc: Global) -> Result<String, Error> {
    let users = pattern(alloc, "https://example.com/users/:id")?;
    let pages = pattern(alloc, "https://example.com/*")?;
    let overlap = match users.overlaps(alloc, &pages) {
        Ok(overlap) => overlap,
        Err(_) => return Err(Error::OutOfMemory),
    };
    let line = overlap_words(alloc, &overlap);
    drop(overlap);
    line
}

/// Whether two patterns have a URL in common, in words.
fn overlap_words(alloc: Global, overlap: &PatternOverlap) -> Result<String, Error> {
    // docs: overlap
    match overlap {
        PatternOverlap::Apart => Ok(format!(in alloc; "apart")?),
        PatternOverlap::Common(texts) => match &texts.pathname {
            Some(text) => Ok(format!(in alloc; "common: {text}")?),
            None => Ok(format!(in alloc; "common, with the same parts")?),
        },
        PatternOverlap::Unknown(component, _) => Ok(format!(in alloc; "unknown: {component}")?),
    }
    // docs: end
}

#[test]
fn whether_patterns_have_a_text_in_common(rt: HostRuntime) -> Result<(), Fail> {
    expect_line(&rt, overlaps_line(rt.alloc()), "common: /users/a")?;
    Ok(())
}

/// Whether the last rule of a list is the first match of some URL, in words.
fn reach_line(alloc: Global) -> Result<String, Error> {
    // docs: reach
    let mut rules = UrlPatternList::new(alloc);
    rules.try_push(pattern(alloc, "https://example.com/users/*")?)?;
    rules.try_push(pattern(alloc, "https://example.com/users/:id")?)?;
    let Ok(reach) = rules.reach_of_each(alloc, USUAL_LIMITS) else {
        return Err(Error::OutOfMemory);
    };
    // docs: end
    // docs: reached
    match reach.last() {
        Some(Reach::Never(earlier)) => Ok(format!(in alloc; "dead, by the rules {earlier:?}")?),
        Some(Reach::First(texts)) => Ok(format!(in alloc; "first for {}", texts.pathname)?),
        _ => text(alloc, "not known"),
    }
    // docs: end
}

#[test]
fn which_rules_are_dead(rt: HostRuntime) -> Result<(), Fail> {
    expect_line(&rt, reach_line(rt.alloc()), "dead, by the rules [0]")?;
    Ok(())
}

/// The parts of the pattern of a constructor string.
fn parts(alloc: Global, text: &str) -> Result<PatternParts, Error> {
    let Some(parts) = pattern(alloc, text)?.into_parts() else {
        return Err(Error::OutOfMemory);
    };
    Ok(parts)
}

/// A path that a rule matches after a change, and did not match before, in words.
fn change_line(alloc: Global) -> Result<String, Error> {
    let users = parts(alloc, "https://example.com/users/:id")?;
    let pages = parts(alloc, "https://example.com/users/*")?;
    // docs: change
    let before = PatternAutomata::new(alloc, users)?;
    let after = PatternAutomata::new(alloc, pages)?;
    let added = find_common(alloc, &[&after], &[&before], USUAL_LIMITS);
    // docs: end
    drop(before);
    drop(after);
    // docs: added
    match added? {
        Common::Texts(texts) => Ok(format!(in alloc; "lets in {}", texts.pathname)?),
        Common::Nothing => text(alloc, "lets in nothing new"),
        Common::Unknown(_) => text(alloc, "not known"),
    }
    // docs: end
}

#[test]
fn what_a_change_lets_in(rt: HostRuntime) -> Result<(), Fail> {
    expect_line(&rt, change_line(rt.alloc()), "lets in /users/")?;
    Ok(())
}

/// The constructor string of a pattern that was made of another one, in words.
fn text_line(alloc: Global) -> Result<String, Error> {
    // docs: constructor_string
    let users = pattern(alloc, "https://example.com/{users}/:id")?;
    let text = users.to_constructor_string(alloc)?;
    // docs: end
    match text {
        Some(text) => line_of(format!(in alloc; "as a text: {text}")),
        None => line_of(format!(in alloc; "no text")),
    }
}

#[test]
fn a_pattern_as_one_text(rt: HostRuntime) -> Result<(), Fail> {
    let line = text_line(rt.alloc());
    expect_line(&rt, line, "as a text: https://example.com/users/:id")?;
    Ok(())
}

/// Whether two patterns of equal parts hash alike, in words.
fn hash_line(alloc: Global) -> Result<String, Error> {
    let users = pattern(alloc, "https://example.com/users/:id")?;
    let braced = pattern(alloc, "https://example.com/{users}/:id")?;
    let is_alike = match (users.parts(), braced.parts()) {
        (Some(parts), Some(others)) => hash_of(parts) == hash_of(others),
        _ => false,
    };
    line_of(format!(in alloc; "hashed alike: {is_alike}"))
}

/// A hash of the parts of a pattern.
fn hash_of(parts: &PatternParts) -> u64 {
    // docs: hash_into
    let mut hasher = DefaultHasher::default();
    parts.hash_into(&mut hasher);
    hasher.finish()
    // docs: end
}

#[test]
fn equal_parts_hash_alike(rt: HostRuntime) -> Result<(), Fail> {
    expect_line(&rt, hash_line(rt.alloc()), "hashed alike: true")?;
    Ok(())
}
