//! Static routes.
use std::thread;
use urlpattern_proved::{
    ComponentName, Error, RouteRequest, RouteSource, StaticRoutes, StaticRoutesError, Subject,
};

const SCRIPT: &str = "https://app.example/js/sw.js";
const RULES: &str = r#"[
    {"condition": {"urlPattern": "/img/*", "requestMethod": "get"}, "source": {"cacheName": "v1"}},
    {"condition": {"not": {"runningStatus": "running"}}, "source": "fetch-event"}
]"#;

fn request<'a>(url: &'a str, method: &'a str, is_running: bool) -> RouteRequest<'a> {
    RouteRequest {
        url,
        method,
        mode: "no-cors",
        destination: "image",
        is_running,
    }
}

#[test]
fn the_first_rule_whose_condition_holds_decides() {
    let routes = StaticRoutes::read(SCRIPT, RULES, true).unwrap();
    let url = "https://app.example/img/a.png";
    let cache = RouteSource::Cache(Some("v1".into()));
    assert_eq!(
        routes.decide(request(url, "GET", true)),
        Ok(Some((0, cache)))
    );
    assert_eq!(routes.decide(request(url, "PUT", true)), Ok(None));
    let handler = Some((1, RouteSource::FetchEvent));
    assert_eq!(routes.decide(request(url, "PUT", false)), Ok(handler));
    assert_eq!(
        routes.decide(request("/img/a", "GET", true)),
        Err(Error::NoUrl)
    );
}

#[test]
fn each_fault_is_there() {
    let rules = r#"[{"condition": {"urlPattern": "/a/(b"}, "source": "fetch-event"},
        {"condition": {"urlPattern": {"search": ":x"}}, "source": "network"}]"#;
    let error = StaticRoutes::read(SCRIPT, rules, false).err();
    let Some(StaticRoutesError::Rejected(faults)) = error else {
        panic!("the rules are accepted");
    };
    let members: Vec<_> = faults.iter().map(|fault| fault.member).collect();
    let (source, pattern) = ((0, "source"), "urlPattern");
    assert_eq!(
        members,
        [Some(source), Some((0, pattern)), Some((1, pattern))]
    );
    assert_eq!(faults[0].reason, "needs a handler of fetch events");
    assert_eq!(faults[1].text.as_deref(), Some("/a/(b"));
    assert_eq!(
        (faults[1].subject, faults[1].start, faults[1].end),
        (Subject::Component(ComponentName::Pathname), 3, 4)
    );
    let search = Subject::Component(ComponentName::Search);
    assert_eq!((faults[2].subject, &faults[2].text), (search, &None));
}

#[test]
fn a_text_may_be_no_json_and_no_url() {
    let error = StaticRoutes::read(SCRIPT, "[", true).err();
    assert_eq!(error, Some(StaticRoutesError::Rejected(vec![])));
    let error = StaticRoutes::read("sw.js", "[]", true).err();
    assert_eq!(error, Some(StaticRoutesError::Failed(Error::NoUrl)));
}

#[test]
fn static_routes_go_from_thread_to_thread() {
    let routes = StaticRoutes::read(SCRIPT, RULES, true).unwrap();
    let thread = thread::spawn(move || routes.decide(request(SCRIPT, "GET", true)));
    assert_eq!(thread.join().unwrap(), Ok(None));
}
