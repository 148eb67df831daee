//! Times the library's calls on pairs of a pattern and URLs, over both engines, in nanoseconds for
//! each call. Also times the first match of lists of routes, and matchers that leave an engine many
//! choices.

mod decisions;
mod hostile;
mod links;
mod lists;
mod paths;
mod repeating;
mod rounds;
mod routes;
mod rules;

use crate::calls::{is_set, optional_text};
use regex::Regex;
pub use repeating::repeat;
use rounds::{Timed, least};
use serde_json::Value;
use std::alloc::Global;
use std::borrow::CowStr;
use std::collections::HashMap;
use std::io::Write;
use std::rt::Files;
use std::time::Clock;
use std::{fs, io};
use url::Url;
use urlpattern::quirks::{
    StringOrInit, UrlPatternInit, process_construct_pattern_input, process_match_input,
};
use urlpattern::regexp::{PatternRegexp, RegExp};
use urlpattern::{
    ComponentName, Error, UrlPattern, UrlPatternCaptures, UrlPatternMatchInput, UrlPatternOptions,
};

/// The size of the buffer for copies of captures, in bytes.
const ROOM: usize = 256;

/// The call that is timed.
#[derive(Clone, Copy, Drop)]
enum Call {
    /// Compiles the pattern.
    Parse,
    /// Captures the groups of a text that matches.
    ExecText,
    /// Matches a text that does not match.
    ExecMiss,
    /// Captures the groups of a URL that matches, in an owned result.
    ExecUrl,
    /// Tests a URL that matches.
    TestUrl,
    /// Captures the groups of the URL, borrowed from it.
    Captures,
    /// Tests the URL, which is borrowed.
    TestLent,
    /// Parses the text of the URL.
    ParseUrl,
    /// Makes the maps of a result of the pattern, with the names of the groups and no captures.
    Maps,
    /// Captures the groups of the URL, and copies each capture to a buffer.
    Copies,
}

/// The calls, in the order of the columns.
const CALLS: [Call; 10] = [
    Call::Parse,
    Call::ExecText,
    Call::ExecMiss,
    Call::ExecUrl,
    Call::TestUrl,
    Call::ParseUrl,
    Call::Captures,
    Call::TestLent,
    Call::Maps,
    Call::Copies,
];

/// A pattern with the texts that it is made from, and the inputs for it.
#[derive(Drop)]
struct Subject<'a, E: RegExp> {
    given: StringOrInit<'a>,
    base: Option<&'a str>,
    ignore_case: bool,
    pattern: UrlPattern<E>,
    hit: &'a str,
    miss: &'a str,
    url: Url,
}

impl<'a, E: RegExp> Subject<'a, E> {
    /// The pattern of a pair, and its URLs.
    fn new(alloc: Global, given: &'a Value, pair: &'a Value) -> Result<Self, Error> {
        let given = given_as(alloc, given)?;
        let base = optional_text(pair, "base");
        let ignore_case = match pair.get("options") {
            Some(options) => is_set(options, "ignoreCase"),
            None => false,
        };
        let hit = optional_text(pair, "url").unwrap_or("");
        let url = Url::parse(alloc, hit).map_err(Error::Url)?;
        let pattern = make_pattern(alloc, &given, base, ignore_case)?;
        Ok(Self {
            given,
            base,
            ignore_case,
            pattern,
            hit,
            miss: optional_text(pair, "miss").unwrap_or(""),
            url,
        })
    }

    /// Calls once. Returns whether a value was made, or matches.
    ///
    /// Each call is a function of its own: a pattern fills kilobytes of the stack, which other
    /// calls should not pay for.
    fn call(&self, alloc: Global, call: Call) -> Result<bool, Error> {
        match call {
            Call::Parse => self.parse(alloc),
            Call::ExecText => self.exec_text(alloc, self.hit),
            Call::ExecMiss => self.exec_text(alloc, self.miss),
            Call::ExecUrl => self.exec_url(alloc),
            Call::TestUrl => self.test_url(alloc),
            Call::ParseUrl => self.parse_url(alloc),
            Call::Captures => self.captures(alloc),
            Call::TestLent => self.test_lent(alloc),
            Call::Maps => self.maps(alloc),
            Call::Copies => self.copies(alloc),
        }
    }

    /// Compiles the pattern.
    #[inline(never)]
    fn parse(&self, alloc: Global) -> Result<bool, Error> {
        let pattern = make_pattern::<E>(alloc, &self.given, self.base, self.ignore_case)?;
        let is_made = !pattern.pathname().is_empty();
        drop(pattern);
        Ok(is_made)
    }

    /// Captures the groups of a text.
    #[inline(never)]
    fn exec_text(&self, alloc: Global, text: &str) -> Result<bool, Error> {
        let input = StringOrInit::String(CowStr::Borrowed(text));
        let Some((input, _)) = process_match_input(alloc, input, None)? else {
            return Ok(false);
        };
        Ok(self.pattern.exec(alloc, input)?.is_some())
    }

    /// Captures the groups of the URL.
    #[inline(never)]
    fn exec_url(&self, alloc: Global) -> Result<bool, Error> {
        let input = UrlPatternMatchInput::Url(self.url.clone()?);
        Ok(self.pattern.exec(alloc, input)?.is_some())
    }

    /// Tests the URL.
    #[inline(never)]
    fn test_url(&self, alloc: Global) -> Result<bool, Error> {
        let input = UrlPatternMatchInput::Url(self.url.clone()?);
        self.pattern.test(alloc, input)
    }

    /// Captures the groups of the URL, borrowed.
    #[inline(never)]
    fn captures(&self, alloc: Global) -> Result<bool, Error> {
        Ok(self.pattern.captures(alloc, &self.url)?.is_some())
    }

    /// Captures the groups of the URL, borrowed, and copies them.
    #[inline(never)]
    fn copies(&self, alloc: Global) -> Result<bool, Error> {
        match self.pattern.captures(alloc, &self.url)? {
            Some(found) => Ok(are_copied(&found)),
            None => Ok(false),
        }
    }

    /// Tests the URL, which is borrowed.
    #[inline(never)]
    fn test_lent(&self, alloc: Global) -> Result<bool, Error> {
        self.pattern.test_url(alloc, &self.url)
    }

    /// Makes a map of the groups of each component.
    #[inline(never)]
    fn maps(&self, alloc: Global) -> Result<bool, Error> {
        let mut has_groups = false;
        for name in ComponentName::all() {
            let component = self.pattern.get(name);
            has_groups |= make_map(alloc, &component.group_name_list)?;
        }
        Ok(has_groups)
    }

    /// Parses the text of the URL.
    #[inline(never)]
    fn parse_url(&self, alloc: Global) -> Result<bool, Error> {
        Ok(Url::parse(alloc, self.hit).is_ok())
    }
}

/// A call on a subject.
#[derive(Drop)]
struct SubjectCall<'s, 'a, E: RegExp> {
    subject: &'s Subject<'a, E>,
    call: Call,
}

impl<'s, 'a, E: RegExp> Timed for SubjectCall<'s, 'a, E> {
    fn call(&self, alloc: Global) -> Result<bool, Error> {
        self.subject.call(alloc, self.call)
    }
}

/// The pattern of a value: a text, or else the components one by one.
fn given_as<'a>(alloc: Global, value: &'a Value) -> Result<StringOrInit<'a>, Error> {
    match value.as_str() {
        Some(text) => Ok(StringOrInit::String(CowStr::Borrowed(text))),
        None => {
            let init = UrlPatternInit::from_json_value(alloc, value)?;
            Ok(StringOrInit::Init(init.unwrap_or_default()))
        }
    }
}

/// Copies captures to a buffer, as far as there is room. Returns whether anything was copied.
#[inline(always)]
fn are_copied(found: &UrlPatternCaptures<'_, '_>) -> bool {
    let mut buffer = [0_u8; ROOM];
    let mut end = 0_usize;
    for (_, _, capture) in found.iter() {
        let bytes = capture.unwrap_or("").as_bytes();
        let start = end;
        end = start.saturating_add(bytes.len());
        if end <= ROOM && start < end {
            buffer[start..end].copy_from_slice(bytes);
        }
    }
    end > 0 && buffer[0] > 0
}

/// Makes a map of groups with these names. Returns whether there is one.
fn make_map(alloc: Global, names: &[String]) -> Result<bool, Error> {
    let mut groups: HashMap<String, Option<String>> = HashMap::new(alloc);
    for name in names {
        groups.insert(name.clone()?, None)?;
    }
    Ok(!groups.is_empty())
}

/// Compiles the pattern of a text or an init.
fn make_pattern<E: RegExp>(
    alloc: Global,
    given: &StringOrInit<'_>,
    base: Option<&str>,
    ignore_case: bool,
) -> Result<UrlPattern<E>, Error> {
    let init = process_construct_pattern_input(alloc, given.clone()?, base)?;
    let options = UrlPatternOptions {
        ignore_case,
        ..UrlPatternOptions::default()
    };
    UrlPattern::parse(alloc, init, options)
}

/// Prints the times of each pair: its name, an engine, and a column for each call. Each line of a
/// file has a pair. Then come lists of routes, and patterns that leave an engine many choices.
pub fn run<R: Files + AllocGlobal + Clock, O: Write>(
    rt: &R,
    paths: &[String],
    out: &mut O,
) -> io::Result<()> {
    writeln!(
        out,
        "name\tengine\tparse\texec\tmiss\texec of Url\ttest of Url\tUrl::parse\tcaptures of &Url\ttest of &Url\tmaps\tcopied captures"
    )?;
    for path in paths {
        let text = fs::read_to_string(rt, path)?;
        for line in text.lines() {
            time_line(rt, line, out)?;
        }
    }
    lists::run(rt, out)?;
    hostile::run(rt, out)
}

/// Prints the times of linking the captures of each pair: its name, a column for the link, and one
/// for `Url::parse` of its text.
pub fn run_links<R: Files + AllocGlobal + Clock, O: Write>(
    rt: &R,
    paths: &[String],
    out: &mut O,
) -> io::Result<()> {
    writeln!(out, "name\tlink\tUrl::parse")?;
    for path in paths {
        let text = fs::read_to_string(rt, path)?;
        for line in text.lines() {
            links::time_line(rt, line, out)?;
        }
    }
    Ok(())
}

/// Repeats the lookup of paths with a name among the routes of a file. Returns whether there is
/// such a lookup.
pub fn repeat_paths<R: Files + AllocGlobal>(
    rt: &R,
    path: &str,
    lookup: &str,
    is_missing: bool,
    count: u64,
) -> io::Result<bool> {
    let text = fs::read_to_string(rt, path)?;
    match paths::repeat(rt.alloc(), &text, lookup, is_missing, count) {
        Ok(is_known) => Ok(is_known),
        Err(_) => Err(io::Error::from(io::ErrorKind::OutOfMemory)),
    }
}

/// Prints the times of the table of a file's routes, and of generated tables: by paths alone, and
/// by URLs.
pub fn run_routes<R: Files + AllocGlobal + Clock, O: Write>(
    rt: &R,
    path: &str,
    out: &mut O,
) -> io::Result<()> {
    let text = fs::read_to_string(rt, path)?;
    paths::run(rt, &text, out)?;
    routes::run(rt, &text, out)
}

/// Repeats a call for a policy of this many rules, those of the routes of a file first. Returns
/// whether each text is allowed, or found.
pub fn repeat_decisions<R: Files + AllocGlobal>(
    rt: &R,
    path: &str,
    size: u64,
    call: &str,
    count: u64,
) -> io::Result<bool> {
    let text = fs::read_to_string(rt, path)?;
    Ok(matches!(decisions::repeat(rt.alloc(), &text, size as usize, call, count), Ok(true)))
}

/// Prints the times of comparing all routes of a file with each other.
pub fn run_rules<R: AllocGlobal + Clock + Files, O: Write>(
    rt: &R,
    path: &str,
    out: &mut O,
) -> io::Result<()> {
    let text = fs::read_to_string(rt, path)?;
    rules::run(rt, &text, out)
}

/// Prints the times of the pair in a line.
fn time_line<R: AllocGlobal + Clock, O: Write>(rt: &R, line: &str, out: &mut O) -> io::Result<()> {
    match serde_json::from_str::<Value>(rt.alloc(), line) {
        Ok(pair) => time_pair(rt, &pair, out),
        Err(_) => writeln!(out, "no pair: {line}"),
    }
}

/// Prints the times of a pair, in a line for each engine.
fn time_pair<R: AllocGlobal + Clock, O: Write>(
    rt: &R,
    pair: &Value,
    out: &mut O,
) -> io::Result<()> {
    let name = optional_text(pair, "name").unwrap_or("");
    let Some(given) = pair.get("pattern") else {
        return writeln!(out, "{name}\tno pattern");
    };
    write!(out, "{name}\tregex::Regex")?;
    time_over::<Regex, R, O>(rt, given, pair, out)?;
    write!(out, "{name}\tPatternRegexp")?;
    time_over::<PatternRegexp, R, O>(rt, given, pair, out)
}

/// Prints the times of a pair over an engine.
fn time_over<E: RegExp, R: AllocGlobal + Clock, O: Write>(
    rt: &R,
    given: &Value,
    pair: &Value,
    out: &mut O,
) -> io::Result<()> {
    match Subject::<E>::new(rt.alloc(), given, pair) {
        Ok(subject) => {
            let timed = time_subject(rt, &subject, out);
            drop(subject);
            timed
        }
        Err(error) => writeln!(out, "\t{error}"),
    }
}

/// Prints the times of the calls on a subject.
fn time_subject<E: RegExp, R: AllocGlobal + Clock, O: Write>(
    rt: &R,
    subject: &Subject<'_, E>,
    out: &mut O,
) -> io::Result<()> {
    for call in CALLS {
        let time = least(rt, rt.alloc(), &SubjectCall { subject, call })?;
        write!(out, "\t{time}")?;
    }
    writeln!(out)
}
