//! Whether what a policy decides is what follows pattern by pattern.

use super::making::RandomSource;
use super::{Outcome, same};
use std::alloc::Global;
use url::{ParseError, Url};
use urlpattern::regexp::PatternRegexp;
use urlpattern::{Eight, Error, UrlPattern, UrlPatternOptions, url_texts};
use urlpattern_policy::{Decision, DenyReason, Effect, UrlPolicy};

type Policy = UrlPolicy<PatternRegexp>;

/// The beginnings of the patterns of rules.
const ORIGINS: [&str; 12] = [
    "https://example.com", "http{s}?://example.com", "*://localhost:*", "*://(127\\..*):*", "*://*:*",
    "*://[*]:*", "redis://example.com:6379", "https://:name.example", "*://user:*@example.com:*",
    "*://*:*@*:*", "http://example.com:8080", "{https\\:\\//example.com}?",
];

/// The pieces of the patterns' paths.
const PIECES: [&str; 14] = [
    "/internal", "/*", "/a", "/:x", "/:y?", "/(1|2)", "/%C3%A9", "/~", "-b", "{/c}?", "\\?a=*", "#h", "/",
    "/x\\?",
];

/// The pieces of texts.
const STEPS: [&str; 56] = [
    "https://", "http://", "http:", "redis://", "gopher://", "ftp://", "file://", "data:", "//", "/", "\\",
    "example.com", "EXAMPLE.com", "localhost", "LOCALHOST", "loc%61lhost", "127.0.0.1", "2130706433", "0x7f.1",
    "0177.1", "[::1]", "[::ffff:127.0.0.1]", "é", "%c3%a9", "%C3%A9", ".", "..", "%2e", ":", ":80", ":443",
    ":6379", "@", "user", ":pw@", "/internal", "/%69nternal", "/inter%6Eal", "/a", "/b", "/c", "//x", "/1", "%2F",
    "%", "%%361", "%25", "?", "a=b", "%3d", "#", "h", "\t", " ", "a.example", "/~",
];

/// The beginnings of most texts.
const STARTS: [&str; 12] = [
    "https://example.com", "http://example.com", "http://localhost", "https://user@example.com",
    "http://127.0.0.1", "redis://LOCALHOST", "redis://example.com:6379", "gopher://2130706433", "//example.com",
    "", "https://a.example", "http://example.com:8080",
];

/// The maximum number of rules.
const MANY: usize = 12;

/// The number of texts for a policy.
const TEXTS: usize = 20;

/// Asks a policy for random texts.
pub fn ask(maker: &mut RandomSource) -> Result<Outcome, Error> {
    let mut policy = Policy::new(maker.alloc);
    policy.options.plain_spelling = !maker.is_one_in(3);
    policy.options.denies_credentials = maker.is_one_in(2);
    if maker.is_one_in(3) {
        policy.options.default = Effect::Allow;
    }
    let size = maker.below(MANY);
    let filled = fill(maker, &mut policy, size);
    let outcome = match filled {
        Ok(()) => asked(maker, &policy),
        Err(error) => Err(error),
    };
    drop(policy);
    outcome.map(same)
}

/// Appends rules to a policy, except those whose patterns are rejected.
fn fill(maker: &mut RandomSource, policy: &mut Policy, size: usize) -> Result<(), Error> {
    for _ in 0..size {
        let origin = maker.one_of(&ORIGINS, "");
        let text = format!(in maker.alloc; "{origin}{}", maker.text(&PIECES, 4)?)?;
        maker.keep(&text)?;
        let options = UrlPatternOptions::default();
        match UrlPattern::from_constructor_string(maker.alloc, &text, None, options) {
            Ok(pattern) if maker.is_one_in(2) => policy.allow(pattern)?,
            Ok(pattern) => policy.deny(pattern)?,
            Err(Error::OutOfMemory) => return Err(Error::OutOfMemory),
            Err(_refused) => {}
        }
    }
    Ok(())
}

/// Whether a policy decides about some texts as its patterns say one by one.
fn asked(maker: &mut RandomSource, policy: &Policy) -> Result<bool, Error> {
    let base = Url::parse(maker.alloc, "https://example.com/internal/").map_err(Error::Url)?;
    for _ in 0..TEXTS {
        let start = maker.one_of(&STARTS, "");
        let text = format!(in maker.alloc; "{start}{}", maker.text(&STEPS, 8)?)?;
        maker.keep(&text)?;
        let base = if maker.is_one_in(4) { Some(&base) } else { None };
        let decision = policy.decide(maker.alloc, &text, base);
        if decision != expected(maker.alloc, policy, &text, base)? {
            return Ok(false);
        }
    }
    Ok(true)
}

/// What has to be decided about a text.
fn expected(
    alloc: Global,
    policy: &Policy,
    text: &str,
    base: Option<&Url>,
) -> Result<Decision, Error> {
    let parsed = match base {
        Some(base) => base.join(text),
        None => Url::parse(alloc, text),
    };
    let url = match parsed {
        Ok(url) => url,
        Err(error) => return Ok(Decision::Deny(DenyReason::NotAUrl(error))),
    };
    let texts = url_texts(&url);
    if policy.options.denies_credentials && !(texts.username.is_empty() && texts.password.is_empty())
    {
        return Ok(Decision::Deny(DenyReason::Credentials));
    }
    if !policy.options.plain_spelling {
        return by_rules(alloc, policy, &texts);
    }
    let mut host = String::from_str(alloc, texts.hostname)?;
    if !url.is_special() && !host.is_empty() {
        let whole = format!(in alloc; "http://{host}/")?;
        match Url::parse(alloc, &whole) {
            Ok(read) => host = String::from_str(alloc, read.host_str().unwrap_or(""))?,
            Err(_) => {
                let reason = DenyReason::NotAUrl(ParseError::InvalidDomainCharacter);
                return Ok(Decision::Deny(reason));
            }
        }
    }
    by_plain_rules(alloc, policy, &texts, &host)
}

/// What the rules decide about texts in plain spelling, with this host.
fn by_plain_rules(
    alloc: Global,
    policy: &Policy,
    texts: &Eight<&str>,
    host: &str,
) -> Result<Decision, Error> {
    let (protocol, username) = (spelled(alloc, texts.protocol, false)?, spelled(alloc, texts.username, false)?);
    let (password, port) = (spelled(alloc, texts.password, false)?, spelled(alloc, texts.port, false)?);
    let pathname = spelled(alloc, texts.pathname, texts.pathname.starts_with('/'))?;
    let (search, hash) = (spelled(alloc, texts.search, false)?, spelled(alloc, texts.hash, false)?);
    let plain = Eight {
        protocol: protocol.as_str(),
        username: username.as_str(),
        password: password.as_str(),
        hostname: host.trim_end_matches('.'),
        port: port.as_str(),
        pathname: pathname.as_str(),
        search: search.as_str(),
        hash: hash.as_str(),
    };
    by_rules(alloc, policy, &plain)
}

/// What the rules decide about texts, asked one after another.
fn by_rules(alloc: Global, policy: &Policy, texts: &Eight<&str>) -> Result<Decision, Error> {
    for (index, (pattern, effect)) in policy.rules.iter().enumerate() {
        if pattern.test_texts(alloc, texts)? {
            return Ok(match effect {
                Effect::Allow => Decision::Allow(Some(index)),
                Effect::Deny => Decision::Deny(DenyReason::Rule(index)),
            });
        }
    }
    Ok(match policy.options.default {
        Effect::Allow => Decision::Allow(None),
        Effect::Deny => Decision::Deny(DenyReason::NoRule),
    })
}

/// The plain spelling of a text: one place after another is spelled plainer, until none is left.
fn spelled(alloc: Global, text: &str, joins: bool) -> Result<String, Error> {
    let mut now = String::from_str(alloc, text)?;
    while let Some((place, length, plainer)) = place_of(&now, joins) {
        let mut next = String::from_str(alloc, &now[..place])?;
        for byte in plainer.iter().take_while(|byte| **byte != 0) {
            next.push(*byte as char)?;
        }
        next.push_str(&now[place + length..])?;
        now = next;
    }
    Ok(now)
}

/// The first place with a plainer spelling, its length, and that spelling, of at most three bytes.
fn place_of(text: &str, joins: bool) -> Option<(usize, usize, [u8; 3])> {
    let bytes = text.as_bytes();
    for place in 0..bytes.len() {
        if joins && bytes[place..].starts_with(b"//") {
            return Some((place, 2, [b'/', 0, 0]));
        }
        if bytes[place] != b'%' || place + 2 >= bytes.len() {
            continue;
        }
        let (high, low) = (bytes[place + 1], bytes[place + 2]);
        if !high.is_ascii_hexdigit() || !low.is_ascii_hexdigit() {
            continue;
        }
        let byte = value_of(high) * 16 + value_of(low);
        if byte.is_ascii_alphanumeric() || b"-._~".contains(&byte) {
            return Some((place, 3, [byte, 0, 0]));
        }
        if high.is_ascii_lowercase() || low.is_ascii_lowercase() {
            return Some((place, 3, [b'%', high.to_ascii_uppercase(), low.to_ascii_uppercase()]));
        }
    }
    None
}

/// The value of a hexadecimal digit.
fn value_of(digit: u8) -> u8 {
    match digit {
        b'0'..=b'9' => digit - b'0',
        b'a'..=b'f' => digit - b'a' + 10,
        _ => digit - b'A' + 10,
    }
}
