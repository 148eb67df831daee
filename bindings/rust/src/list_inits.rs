//! Inits that are matched, patterns as one text, and texts of components.
use crate::calls::{given, written, Matching};
use crate::error::answer;
use crate::{c, Captures, ComponentName, Error, UrlPatternInit, UrlPatternList, UrlPatternResult};

impl UrlPatternList {
    /// What the groups of a pattern capture of an init, with what it inherits from its base URL. A
    /// component that it leaves out, and does not inherit, is empty.
    pub fn captures_of_init(
        &self,
        index: usize,
        init: &UrlPatternInit,
    ) -> Result<Option<Captures>, Error> {
        let json = init.to_json();
        self.matched(
            |_, text, spans, sizes| unsafe {
                c::urlpattern_captures_of_init(
                    self.at(),
                    index,
                    json.as_ptr(),
                    json.len(),
                    text.as_mut_ptr(),
                    text.len(),
                    spans.as_mut_ptr(),
                    spans.len(),
                    sizes,
                )
            },
            index,
        )
    }

    /// The first pattern that matches an init, as `captures_of_init` matches it, and what its groups
    /// capture.
    pub fn first_captures_of_init(&self, init: &UrlPatternInit) -> Result<Option<Captures>, Error> {
        let json = init.to_json();
        self.matched(
            |index, text, spans, sizes| unsafe {
                c::urlpattern_first_captures_of_init(
                    self.at(),
                    json.as_ptr(),
                    json.len(),
                    index,
                    text.as_mut_ptr(),
                    text.len(),
                    spans.as_mut_ptr(),
                    spans.len(),
                    sizes,
                )
            },
            0,
        )
    }

    /// The match of an init by a pattern, as a browser has it.
    pub fn exec_of_init(
        &self,
        index: usize,
        init: &UrlPatternInit,
    ) -> Result<Option<UrlPatternResult>, Error> {
        let init = init.to_json();
        let (status, json) = written(|buffer, room, needed| unsafe {
            let (init, length) = (init.as_ptr(), init.len());
            c::urlpattern_exec_of_init(self.at(), index, init, length, buffer, room, needed)
        });
        Ok(answer(status)?.then(|| UrlPatternResult::from_json(&json).expect("JSON of a match")))
    }

    /// A pattern as one text, a constructor string of which the same one is compiled. `None`: it has
    /// none.
    pub fn to_constructor_string(&self, index: usize) -> Result<Option<String>, Error> {
        let (status, text) = written(|buffer, room, needed| unsafe {
            c::urlpattern_text(self.at(), index, buffer, room, needed)
        });
        Ok(answer(status)?.then_some(text))
    }

    /// The text of a component of a pattern with these groups, as `link` has a whole URL.
    pub fn generate(
        &self,
        index: usize,
        component: ComponentName,
        groups: &[(ComponentName, &str, &str)],
    ) -> Result<String, Error> {
        let (text, given) = given(groups);
        let (status, made) = written(|buffer, room, needed| unsafe {
            c::urlpattern_generate(
                self.at(),
                index,
                component as u32,
                text.as_ptr(),
                text.len(),
                given.as_ptr(),
                given.len(),
                buffer,
                room,
                needed,
            )
        });
        if status == c::REFUSED {
            return Err(Error::NoLink(made));
        }
        answer(status).map(|_| made)
    }
}
