//! Finds URLs that some patterns match, and others do not.

use crate::Case;
use crate::common::{LIMITS, are_all_matched, are_indices};
use crate::recorded::Fault;
use serde_json::Value;
use urlpattern_compare::PatternAutomata;
use urlpattern_matches::url_texts;
use urlpattern_urls::{CommonUrl, UrlFacts, UrlReach};

/// Whether a URL is found that each pattern of one list matches, and no pattern of another, as
/// recorded: `"url"`, `"nothing"`, `"texts"` or `"unknown"`.
pub fn is_same_url(
    case: &Case<'_>,
    all_of: &[&PatternAutomata],
    none_of: &[&PatternAutomata],
    recorded: &Value,
) -> Result<bool, Fault> {
    let facts = UrlFacts::new(case.alloc)?;
    let found = facts.find_common(case.alloc, all_of, none_of, LIMITS);
    drop(facts);
    let kind = match found? {
        CommonUrl::Url(url) => {
            if !are_all_matched(case, &url_texts(&url))? {
                return Ok(false);
            }
            "url"
        }
        CommonUrl::Nothing => "nothing",
        CommonUrl::Texts(_, _) => "texts",
        CommonUrl::Unknown(_) => "unknown",
    };
    Ok(recorded.as_str() == Some(kind))
}

/// Whether a pattern is reached by a URL as recorded: `"url"`, `"texts"`, `"unknown"`, or the
/// indices of the patterns that match each URL that it matches.
pub fn is_same_reach(
    case: &Case<'_>,
    earlier: &[&PatternAutomata],
    asked: &PatternAutomata,
    recorded: &Value,
) -> Result<bool, Fault> {
    let facts = UrlFacts::new(case.alloc)?;
    let found = facts.reach_of(case.alloc, earlier, asked, LIMITS);
    drop(facts);
    match found? {
        UrlReach::First(_) => Ok(recorded.as_str() == Some("url")),
        UrlReach::Never(by) => Ok(are_indices(&by, recorded)),
        UrlReach::Texts(_, _) => Ok(recorded.as_str() == Some("texts")),
        UrlReach::Unknown(_) => Ok(recorded.as_str() == Some("unknown")),
    }
}
