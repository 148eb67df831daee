//! Components, the texts of an init, and options.

/// A component of a URL.
#[derive(Clone, Copy, Debug, PartialEq, Eq, Hash)]
pub enum ComponentName {
    Protocol,
    Username,
    Password,
    Hostname,
    Port,
    Pathname,
    Search,
    Hash,
}

impl ComponentName {
    /// The components, in the order of the standard.
    pub const ALL: [ComponentName; 8] = [
        ComponentName::Protocol,
        ComponentName::Username,
        ComponentName::Password,
        ComponentName::Hostname,
        ComponentName::Port,
        ComponentName::Pathname,
        ComponentName::Search,
        ComponentName::Hash,
    ];

    /// The component of a number, if there is one.
    pub(crate) fn of(number: u32) -> Option<ComponentName> {
        Self::ALL.get(number as usize).copied()
    }

    /// The name of the component in an init.
    pub fn as_str(self) -> &'static str {
        match self {
            ComponentName::Protocol => "protocol",
            ComponentName::Username => "username",
            ComponentName::Password => "password",
            ComponentName::Hostname => "hostname",
            ComponentName::Port => "port",
            ComponentName::Pathname => "pathname",
            ComponentName::Search => "search",
            ComponentName::Hash => "hash",
        }
    }
}

/// The pattern texts of components, and a base URL from which a pattern inherits.
#[derive(Clone, Debug, Default, PartialEq, Eq)]
pub struct UrlPatternInit {
    pub protocol: Option<String>,
    pub username: Option<String>,
    pub password: Option<String>,
    pub hostname: Option<String>,
    pub port: Option<String>,
    pub pathname: Option<String>,
    pub search: Option<String>,
    pub hash: Option<String>,
    pub base_url: Option<String>,
}

/// How a pattern is compiled.
#[derive(Clone, Copy, Debug, Default, PartialEq, Eq)]
pub struct UrlPatternOptions {
    /// Whether path, query and fragment are matched without regard to the case of ASCII letters.
    pub ignore_case: bool,
}

impl UrlPatternInit {
    /// The init as JSON.
    pub(crate) fn to_json(&self) -> String {
        let texts = [
            ("protocol", &self.protocol),
            ("username", &self.username),
            ("password", &self.password),
            ("hostname", &self.hostname),
            ("port", &self.port),
            ("pathname", &self.pathname),
            ("search", &self.search),
            ("hash", &self.hash),
            ("baseURL", &self.base_url),
        ];
        let members: Vec<String> = texts
            .into_iter()
            .filter_map(|(key, text)| Some(format!("\"{key}\":{}", quoted(text.as_ref()?))))
            .collect();
        format!("{{{}}}", members.join(","))
    }
}

/// A text as a string of JSON.
fn quoted(text: &str) -> String {
    let mut json = String::from('"');
    for c in text.chars() {
        match c {
            '"' | '\\' => json.extend(['\\', c]),
            '\0'..='\x1f' => json.push_str(&format!("\\u{:04x}", u32::from(c))),
            _ => json.push(c),
        }
    }
    json.push('"');
    json
}
