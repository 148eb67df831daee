//! Patterns that are compared: two, of one list or of two, or all of a list.
use crate::calls::written;
use crate::error::answer;
use crate::{c, Error, UrlPatternInit, UrlPatternList};
use std::ptr;

/// Why it is not known whether a pattern covers another one.
#[derive(Clone, Copy, Debug, PartialEq, Eq)]
pub enum CoveringReason {
    /// A component has a custom regular expression.
    CustomExpression,
    /// A component has a custom regular expression, and ignores case.
    IgnoredCase,
    /// It would take too many steps to compare them.
    TooMany,
}

impl UrlPatternList {
    /// Whether a pattern is the same as one of this list or of another: whether both have the same
    /// parts, names and options.
    pub fn is_same(&self, index: usize, others: &Self, other: usize) -> Result<bool, Error> {
        answer(unsafe {
            if ptr::eq(self, others) {
                c::urlpattern_is_same_within(self.at(), index, other)
            } else {
                c::urlpattern_is_same_between(self.at(), index, others.at(), other)
            }
        })
    }

    /// Why it is not known whether a pattern covers the asked one, of this list or of another.
    /// `None`: it is known.
    pub fn covering_reason(
        &self,
        index: usize,
        others: &Self,
        asked: usize,
    ) -> Result<Option<CoveringReason>, Error> {
        let mut number = 0;
        let is_unknown = answer(unsafe {
            if ptr::eq(self, others) {
                c::urlpattern_covering_reason_within(self.at(), index, asked, &mut number)
            } else {
                let others = others.at();
                c::urlpattern_covering_reason_between(self.at(), index, others, asked, &mut number)
            }
        })?;
        Ok(is_unknown.then_some(match number {
            1 => CoveringReason::CustomExpression,
            2 => CoveringReason::IgnoredCase,
            _ => CoveringReason::TooMany,
        }))
    }

    /// Texts that the asked pattern, of this list or of another, matches and a pattern does not: an
    /// init without those that are not known. `None`: there are none, or it is not known.
    pub fn counterexample(
        &self,
        index: usize,
        others: &Self,
        asked: usize,
    ) -> Result<Option<UrlPatternInit>, Error> {
        let (status, json) = written(|buffer, room, needed| unsafe {
            if ptr::eq(self, others) {
                c::urlpattern_counterexample_within(self.at(), index, asked, buffer, room, needed)
            } else {
                let others = others.at();
                c::urlpattern_counterexample_between(
                    self.at(),
                    index,
                    others,
                    asked,
                    buffer,
                    room,
                    needed,
                )
            }
        });
        if status == c::UNKNOWN || !answer(status)? {
            return Ok(None);
        }
        Ok(Some(
            UrlPatternInit::from_json(&json).expect("JSON of an init"),
        ))
    }

    /// Whether there are texts that two patterns, of this list or of two, both match. `None`: it is
    /// not known.
    pub fn overlaps(
        &self,
        index: usize,
        others: &Self,
        other: usize,
    ) -> Result<Option<bool>, Error> {
        let (status, _) = written(|buffer, room, needed| unsafe {
            if ptr::eq(self, others) {
                c::urlpattern_overlaps_within(self.at(), index, other, buffer, room, needed)
            } else {
                let others = others.at();
                c::urlpattern_overlaps_between(
                    self.at(),
                    index,
                    others,
                    other,
                    buffer,
                    room,
                    needed,
                )
            }
        });
        if status == c::UNKNOWN {
            return Ok(None);
        }
        answer(status).map(Some)
    }

    /// Whether each pattern is the first match of some texts: an array in JSON, with an init that
    /// has such texts, or an array of the indices of earlier patterns that cover the pattern
    /// together, or `null` if neither is known.
    pub fn reach_of_each(&self) -> Result<String, Error> {
        let (status, json) = written(|buffer, room, needed| unsafe {
            c::urlpattern_reach_of_each(self.at(), buffer, room, needed)
        });
        if status == c::NO_PATTERN {
            return Ok("[]".to_owned());
        }
        answer(status).map(|_| json)
    }
}
