//! One pattern.
use crate::{
    Captures, ComponentName, Covering, Error, UrlPatternInit, UrlPatternList, UrlPatternOptions,
    UrlPatternResult,
};

/// A pattern.
///
/// ```
/// use urlpattern_proved::{UrlPattern, UrlPatternInit, UrlPatternOptions};
///
/// let init = UrlPatternInit { pathname: Some("/users/:id".to_owned()), ..Default::default() };
/// let pattern = UrlPattern::parse(&init, UrlPatternOptions::default())?;
/// assert!(pattern.test("https://example.com/users/7", None)?);
/// let found = pattern.exec("https://example.com/users/7", None)?.unwrap();
/// assert_eq!(found.pathname.groups["id"].as_deref(), Some("7"));
/// # Ok::<(), urlpattern_proved::Error>(())
/// ```
pub struct UrlPattern {
    list: UrlPatternList,
}

impl UrlPattern {
    /// Compiles an init.
    pub fn parse(init: &UrlPatternInit, options: UrlPatternOptions) -> Result<Self, Error> {
        let mut list = UrlPatternList::new();
        list.push_init(init, options)?;
        Ok(Self { list })
    }

    /// Compiles a constructor string, under a base URL if there is one.
    pub fn from_constructor_string(
        text: &str,
        base: Option<&str>,
        options: UrlPatternOptions,
    ) -> Result<Self, Error> {
        let mut list = UrlPatternList::new();
        list.push(text, base, options)?;
        Ok(Self { list })
    }

    /// Another value of the same pattern, for another thread.
    pub fn try_clone(&self) -> Result<Self, Error> {
        Ok(Self {
            list: self.list.try_clone()?,
        })
    }

    /// Whether the pattern matches a URL, which may be relative to a base URL.
    pub fn test(&self, url: &str, base: Option<&str>) -> Result<bool, Error> {
        self.list.test(0, url, base)
    }

    /// The match of a URL, as a browser has it.
    pub fn exec(&self, url: &str, base: Option<&str>) -> Result<Option<UrlPatternResult>, Error> {
        self.list.exec(0, url, base)
    }

    /// What the groups capture of a URL.
    pub fn captures(&self, url: &str, base: Option<&str>) -> Result<Option<Captures>, Error> {
        self.list.captures(0, url, base)
    }

    /// What the groups capture of a path by itself, all other components being empty.
    pub fn captures_of_path(&self, path: &str) -> Result<Option<Captures>, Error> {
        self.list.captures_of_path(0, path)
    }

    /// What the groups capture of an init, with what it inherits from its base URL.
    pub fn captures_of_init(&self, init: &UrlPatternInit) -> Result<Option<Captures>, Error> {
        self.list.captures_of_init(0, init)
    }

    /// The match of an init, as a browser has it.
    pub fn exec_of_init(&self, init: &UrlPatternInit) -> Result<Option<UrlPatternResult>, Error> {
        self.list.exec_of_init(0, init)
    }

    /// The first component that does not match a URL.
    pub fn mismatch(&self, url: &str, base: Option<&str>) -> Result<Option<ComponentName>, Error> {
        self.list.mismatch(0, url, base)
    }

    /// The URL of the pattern with these groups.
    pub fn link(&self, groups: &[(ComponentName, &str, &str)]) -> Result<String, Error> {
        self.list.link(0, groups)
    }

    /// The text of a component with these groups, as `link` has a whole URL.
    pub fn generate(
        &self,
        component: ComponentName,
        groups: &[(ComponentName, &str, &str)],
    ) -> Result<String, Error> {
        self.list.generate(0, component, groups)
    }

    /// Whether the pattern matches each URL that the asked one matches.
    pub fn covers(&self, asked: &UrlPattern) -> Result<Covering, Error> {
        self.list.covers_of(0, &asked.list, 0)
    }

    /// The pattern as one text, a constructor string of which the same one is compiled. `None`: it
    /// has none.
    pub fn to_constructor_string(&self) -> Result<Option<String>, Error> {
        self.list.to_constructor_string(0)
    }

    /// Whether both patterns have the same parts, names and options.
    pub fn is_same(&self, other: &UrlPattern) -> Result<bool, Error> {
        self.list.is_same(0, &other.list, 0)
    }

    /// Texts that the asked pattern matches and this one does not: an init without those that are
    /// not known. `None`: there are none, or it is not known.
    pub fn counterexample(&self, asked: &UrlPattern) -> Result<Option<UrlPatternInit>, Error> {
        self.list.counterexample(0, &asked.list, 0)
    }

    /// Whether there are texts that both patterns match. `None`: it is not known.
    pub fn overlaps(&self, other: &UrlPattern) -> Result<Option<bool>, Error> {
        self.list.overlaps(0, &other.list, 0)
    }

    /// The pattern text of a component.
    pub fn component(&self, name: ComponentName) -> Result<String, Error> {
        self.list.component(0, name)
    }

    /// Whether the pattern has a custom regular expression.
    pub fn has_regexp_groups(&self) -> Result<bool, Error> {
        self.list.has_regexp_groups(0)
    }

    /// Whether each component has a meaning, so that its text alone says what it matches.
    pub fn has_meaning(&self) -> Result<bool, Error> {
        self.list.has_meaning(0)
    }
}
