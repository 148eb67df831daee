//! The texts of questions: random texts over a small alphabet, and changed forms of real ones.

use super::making::RandomSource;
use std::alloc::AllocError;
use std::borrow::CowStr;
use urlpattern::parser::Options;
use urlpattern::quirks::{StringOrInit, UrlPatternInit};
use urlpattern::{Error, RegexSyntax};

/// The base URL of patterns and inputs that have one.
pub const BASE: &str = "https://example.com/a/b?q#h";

/// The pieces of component patterns, mostly well formed.
const GROUPS: [&str; 16] = [
    "/a", "/b", "/:x", "/:y", "/*", "{/:z}?", "{a}*", "{b:w/}+", "(a|b)", "([^/]+?)", "*", ".",
    "-", "b", "é", "\\:",
];

/// The characters of component patterns.
const MARKS: [&str; 16] = [
    "a", "b", "/", ".", ":x", ":y", "*", "{", "}", "?", "+", "(a)", "(", ")", "\\", "é",
];

/// The pieces of the texts for a component.
const LETTERS: [&str; 12] = [
    "a", "b", "ab", "/", "/a", "/b", ".", "-", "é", "A", "c", ":",
];

/// The pieces of constructor strings and URLs.
const URL_PIECES: [&str; 24] = [
    "a",
    "b",
    ":",
    "/",
    "//",
    "https://",
    "http{s}?:",
    "data:",
    "example.com",
    "*.",
    ":x",
    "@",
    ":80",
    "*",
    "?",
    "#",
    "{",
    "}",
    "(",
    ")",
    "\\",
    "[::1]",
    "é",
    "q=",
];

/// Patterns, each with a text that it matches.
type Pairs = &'static [(&'static str, &'static str)];

/// Patterns that are read under the default options.
const DEFAULTS: Pairs = &[
    ("*", "anything"),
    ("q=:query&*", "q=a&b=c"),
    (":a-:b{-:c}?", "x-y-z"),
    ("v(\\d+).:minor", "v1.2"),
    ("http{s}?", "https"),
    ("{a:x}*b", "a1a2b"),
];

/// Patterns of hosts.
const HOSTS: Pairs = &[
    ("*.example.com", "cdn.example.com"),
    (":sub.example.:tld", "api.example.org"),
    ("{:sub.}?example.com", "example.com"),
    ("{:name.}+com", "a.b.com"),
    ("(www|api).example.com", "www.example.com"),
    (":a.:b.:c", "x.y.z"),
];

/// Patterns of paths.
const PATHS: Pairs = &[
    ("/about/team", "/about/team"),
    ("/users/:id", "/users/123"),
    ("/users/:id(\\d+)", "/users/123"),
    (
        "/:org/:repo/issues/:number/:tab",
        "/acme/widgets/issues/42/comments",
    ),
    ("{/:lang}?/docs/*.html", "/en/docs/guide/intro.html"),
    ("/files/:path+", "/files/a/b/c/d"),
    ("/static/*.(png|jpe?g|svg)", "/static/img/logo.png"),
    ("/blog/:id.html", "/blog/a.html"),
    ("/a{/:x}?b", "/a/1b"),
    ("/books{/:a/:b}*", "/books/1/2/3/4"),
    ("/*/x/:y?", "/a/b/x"),
    ("/Products/:id", "/products/9"),
];

/// Constructor strings, each with a URL that it matches.
const STRINGS: Pairs = &[
    (
        "https://*.example.com/:section/*",
        "https://cdn.example.com/images/a/b.png",
    ),
    (
        "http{s}?://example.com/:lang(en|fr)?/docs",
        "http://example.com/fr/docs",
    ),
    ("/users/:id", "https://example.com/users/123"),
    (
        "https://example.com:8080/a/*\\?q=:q#:h",
        "https://example.com:8080/a/b?q=1#top",
    ),
    ("../c/:name", "https://example.com/c/d"),
    ("?q=:q", "https://example.com/a/b?q=1"),
    ("https://:user:*@example.com/*", "https://u:p@example.com/x"),
    ("data\\:foo*", "data:foobar"),
    ("https://[\\:\\:1]:80/*", "https://[::1]:80/a"),
    ("*://:host.com/{a/:x}+", "ftp://b.com/a/1a/2"),
];

/// The patterns and the texts of a kind of component.
#[derive(Clone, Copy)]
enum Place {
    Default,
    Host,
    Path,
}

impl Place {
    /// The options of this kind.
    fn options(self, maker: &RandomSource) -> Result<Options, Error> {
        match self {
            Place::Default => Ok(Options::default(maker.alloc)),
            Place::Host => Ok(Options::hostname(maker.alloc)),
            Place::Path => Options::pathname(maker.alloc),
        }
    }

    /// The real patterns of this kind.
    fn pairs(self) -> Pairs {
        match self {
            Place::Default => DEFAULTS,
            Place::Host => HOSTS,
            Place::Path => PATHS,
        }
    }
}

/// A component's pattern, its options, and a text that almost matches.
#[derive(Drop)]
pub struct Given {
    /// The options of the pattern.
    pub options: Options,
    /// The pattern.
    pub pattern: String,
    /// A text that the original pattern matches.
    pub near: &'static str,
}

impl Given {
    /// A random pattern, in this syntax.
    pub fn new(maker: &mut RandomSource, syntax: RegexSyntax) -> Result<Given, Error> {
        let places = [Place::Default, Place::Host, Place::Path, Place::Path];
        let place = maker.one_of(&places, Place::Path);
        let mut options = place.options(maker)?;
        options.regex_syntax = syntax;
        options.ignore_case = maker.is_one_in(4);
        let (pattern, near) = component(maker, place.pairs())?;
        Ok(Given {
            options,
            pattern,
            near,
        })
    }
}

/// A random syntax.
pub fn syntax(maker: &mut RandomSource) -> RegexSyntax {
    if maker.is_one_in(4) {
        RegexSyntax::EcmaScript
    } else {
        RegexSyntax::Rust
    }
}

/// A component's pattern, and a text that almost matches.
fn component(maker: &mut RandomSource, pairs: Pairs) -> Result<(String, &'static str), AllocError> {
    let (real, near) = maker.one_of(pairs, ("", ""));
    let pattern = match maker.below(8) {
        0 | 1 | 2 => maker.text(&GROUPS, 7)?,
        3 => maker.text(&MARKS, 9)?,
        _ => maker.mutant(real, &MARKS, 3)?,
    };
    Ok((pattern, near))
}

/// A text for a component.
pub fn text(maker: &mut RandomSource, near: &str) -> Result<String, AllocError> {
    if maker.is_one_in(3) {
        return maker.text(&LETTERS, 7);
    }
    maker.mutant(near, &LETTERS, 3)
}

/// A constructor string, and a URL that almost matches.
pub fn constructor_string(maker: &mut RandomSource) -> Result<(String, &'static str), AllocError> {
    let (real, near) = maker.one_of(STRINGS, ("", ""));
    let string = if maker.is_one_in(8) {
        maker.text(&URL_PIECES, 10)?
    } else {
        maker.mutant(real, &URL_PIECES, 2)?
    };
    Ok((string, near))
}

/// The text of a URL.
pub fn url(maker: &mut RandomSource, near: &str) -> Result<String, AllocError> {
    if maker.is_one_in(4) {
        let (_, other) = maker.one_of(STRINGS, ("", ""));
        return maker.mutant(other, &URL_PIECES, 2);
    }
    maker.mutant(near, &URL_PIECES, 2)
}

/// A base URL, or none.
pub fn base(maker: &mut RandomSource) -> Option<&'static str> {
    if maker.is_one_in(8) { None } else { Some(BASE) }
}

/// The components of a pattern or of an input, one by one.
pub fn init(maker: &mut RandomSource, is_pattern: bool) -> Result<UrlPatternInit, AllocError> {
    let mut init = UrlPatternInit::default();
    let filled = fill(maker, &mut init, is_pattern);
    match filled {
        Ok(()) => Ok(init),
        Err(error) => {
            drop(init);
            Err(error)
        }
    }
}

/// Fills the path and some other fields of an init.
fn fill(maker: &mut RandomSource, init: &mut UrlPatternInit, is_pattern: bool) -> Result<(), AllocError> {
    if maker.is_one_in(2) {
        init.base_url = Some(maker.mutant(BASE, &URL_PIECES, 2)?);
    }
    if !maker.is_one_in(4) {
        init.pathname = Some(field_text(maker, PATHS, is_pattern)?);
    }
    for _ in 0..maker.below(3) {
        let component = maker.below(7);
        let pairs = if component == 3 { HOSTS } else { DEFAULTS };
        let text = field_text(maker, pairs, is_pattern)?;
        *field(init, component) = Some(text);
    }
    Ok(())
}

/// A field of an init other than the path: the fourth is the host.
fn field(init: &mut UrlPatternInit, component: usize) -> &mut Option<String> {
    match component {
        0 => &mut init.protocol,
        1 => &mut init.username,
        2 => &mut init.password,
        3 => &mut init.hostname,
        4 => &mut init.port,
        5 => &mut init.search,
        _ => &mut init.hash,
    }
}

/// The text of a field: a pattern or, for an input, a text that almost matches one.
fn field_text(maker: &mut RandomSource, pairs: Pairs, is_pattern: bool) -> Result<String, AllocError> {
    if is_pattern {
        let (pattern, _) = component(maker, pairs)?;
        return Ok(pattern);
    }
    let (_, near) = maker.one_of(pairs, ("", ""));
    text(maker, near)
}

/// The text or init of a pattern, and a URL that almost matches.
pub fn pattern(maker: &mut RandomSource) -> Result<(StringOrInit<'static>, &'static str), AllocError> {
    if maker.is_one_in(3) {
        return Ok((StringOrInit::Init(init(maker, true)?), BASE));
    }
    let (string, near) = constructor_string(maker)?;
    Ok((StringOrInit::String(CowStr::Owned(string)), near))
}
