//! Patterns, lists and threads.
use std::sync::{Arc, Mutex};
use std::thread;
use urlpattern_proved::{
    version, ComponentName, Covering, Error, Subject, UrlPattern, UrlPatternInit, UrlPatternList,
    UrlPatternOptions,
};

const PLAIN: UrlPatternOptions = UrlPatternOptions { ignore_case: false };

fn pattern(text: &str) -> UrlPattern {
    UrlPattern::from_constructor_string(text, None, PLAIN).unwrap()
}

fn routes() -> UrlPatternList {
    let mut list = UrlPatternList::new();
    for text in [
        "https://example.com/users/:id",
        "https://example.com/books/:isbn(\\d+)",
        "https://example.com/*",
    ] {
        list.push(text, None, PLAIN).unwrap();
    }
    list
}

#[test]
fn a_pattern_matches() {
    assert_eq!(version() / 1000, 2);
    let users = pattern("https://example.com/users/:id/:tab?");
    assert_eq!(users.test("https://example.com/users/7", None), Ok(true));
    assert_eq!(
        users.test("/users/7", Some("https://example.com")),
        Ok(true)
    );
    assert_eq!(users.test("https://example.com/about", None), Ok(false));
    assert_eq!(
        users.mismatch("https://example.com/about", None),
        Ok(Some(ComponentName::Pathname))
    );
    assert_eq!(
        users.mismatch("https://example.com/users/7", None),
        Ok(None)
    );
    let found = users
        .exec("https://example.com/users/7", None)
        .unwrap()
        .unwrap();
    assert_eq!(found.pathname.input, "/users/7");
    assert_eq!(found.pathname.groups["id"].as_deref(), Some("7"));
    assert_eq!(found.pathname.groups["tab"], None);
    let found = users
        .captures("https://example.com/users/7", None)
        .unwrap()
        .unwrap();
    assert_eq!(found.get(ComponentName::Pathname, "id"), Some("7"));
    assert_eq!(found.get(ComponentName::Pathname, "tab"), None);
    assert_eq!(
        users.component(ComponentName::Pathname).as_deref(),
        Ok("/users/:id/:tab?")
    );
    assert_eq!(
        (users.has_regexp_groups(), users.has_meaning()),
        (Ok(false), Ok(true))
    );
}

#[test]
fn what_is_no_url_is_an_error() {
    let all = pattern("*://*/*");
    for text in ["", "no URL", "https://"] {
        assert_eq!(all.test(text, None), Err(Error::NoUrl));
        assert_eq!(all.exec(text, None), Err(Error::NoUrl));
        assert_eq!(all.captures(text, None), Err(Error::NoUrl));
    }
    let long = format!("https://example.com/{}", "x".repeat(1 << 24));
    assert_eq!(all.test(&long, None), Err(Error::TooLong));
    assert_eq!(
        UrlPatternList::new().test(0, "https://example.com/", None),
        Err(Error::NoPattern)
    );
}

#[test]
fn a_path_has_no_host() {
    let init = UrlPatternInit {
        pathname: Some("/users/:id".to_owned()),
        ..Default::default()
    };
    let users = UrlPattern::parse(&init, PLAIN).unwrap();
    let found = users.captures_of_path("/users/7").unwrap().unwrap();
    assert_eq!(found.get(ComponentName::Pathname, "id"), Some("7"));
    assert_eq!(users.captures_of_path("//evil.example/users/7"), Ok(None));
    for text in [
        "",
        "users/7",
        "https://example.com/users/7",
        "/users/7?tab",
        "/users/7#top",
    ] {
        assert_eq!(users.captures_of_path(text), Err(Error::NoPath));
    }
    assert_eq!(routes().first_captures_of_path("/users/7"), Ok(None));
}

#[test]
fn an_init_is_matched() {
    let users = pattern("https://example.com/users/:id");
    let init = UrlPatternInit {
        pathname: Some("users/7".to_owned()),
        base_url: Some("https://example.com/x".to_owned()),
        ..Default::default()
    };
    let found = users.captures_of_init(&init).unwrap().unwrap();
    assert_eq!(found.get(ComponentName::Pathname, "id"), Some("7"));
    let found = users.exec_of_init(&init).unwrap().unwrap();
    assert_eq!(found.pathname.input, "/users/7");
    let found = routes().first_captures_of_init(&init).unwrap().unwrap();
    assert_eq!(found.index, 0);
    let empty = UrlPatternInit::default();
    assert_eq!(users.captures_of_init(&empty), Ok(None));
    assert_eq!(users.exec_of_init(&empty), Ok(None));
    let no_url = UrlPatternInit {
        base_url: Some("no URL".to_owned()),
        ..Default::default()
    };
    assert_eq!(users.captures_of_init(&no_url), Err(Error::NoUrl));
}

#[test]
fn one_text_and_the_same_pattern() {
    let base = Some("https://example.com/users/:id");
    let users = pattern("https://example.com/users/:id");
    let text = users.to_constructor_string().unwrap();
    assert_eq!(text.as_deref(), base);
    let again =
        UrlPattern::from_constructor_string("/users/:id", Some("https://example.com"), PLAIN);
    assert_eq!(users.is_same(&again.unwrap()), Ok(true));
    assert_eq!(users.is_same(&users), Ok(true));
    assert_eq!(
        users.is_same(&pattern("https://example.com/users/:it")),
        Ok(false)
    );
    let init = UrlPatternInit {
        pathname: Some("a*".to_owned()),
        ..Default::default()
    };
    let none = UrlPattern::parse(&init, PLAIN).unwrap();
    assert_eq!(none.to_constructor_string(), Ok(None));
    assert_eq!(routes().is_same(3, &routes(), 0), Err(Error::NoPattern));
}

#[test]
fn eight_texts_are_matched_as_they_are() {
    let mut texts = ["https", "", "", "example.com", "", "/users/é", "", ""];
    let found = routes().first_captures_of_texts(&texts).unwrap().unwrap();
    assert_eq!(
        (found.index, found.get(ComponentName::Pathname, "id")),
        (0, Some("é"))
    );
    assert_eq!(
        routes()
            .captures_of_texts(2, &texts)
            .unwrap()
            .unwrap()
            .index,
        2
    );
    texts[0] = "http";
    assert_eq!(routes().first_captures_of_texts(&texts), Ok(None));
    assert_eq!(routes().captures_of_texts(3, &texts), Err(Error::NoPattern));
}

#[test]
fn a_refused_pattern_has_a_place() {
    let error = UrlPattern::from_constructor_string("https://example.com/:id(abc", None, PLAIN)
        .err()
        .unwrap();
    assert!(
        matches!(
            error,
            Error::Refused {
                subject: Subject::Pattern,
                start: 23,
                end: 24,
                ..
            }
        ),
        "{error:?}"
    );
    let init = UrlPatternInit {
        pathname: Some("/\"{".to_owned()),
        ..Default::default()
    };
    let error = UrlPattern::parse(&init, PLAIN).err().unwrap();
    let subject = Subject::Component(ComponentName::Pathname);
    assert!(
        matches!(&error, Error::Refused { subject: it, start: 3, end: 3, .. } if *it == subject),
        "{error:?}"
    );
    let init = UrlPatternInit {
        base_url: Some("no URL".to_owned()),
        ..Default::default()
    };
    assert_eq!(
        UrlPattern::parse(&init, PLAIN).err(),
        Some(Error::RefusedBase)
    );
}

#[test]
fn links_and_coverings() {
    let users = pattern("https://example.com/users/:id");
    assert_eq!(
        users
            .link(&[(ComponentName::Pathname, "id", "a b")])
            .as_deref(),
        Ok("https://example.com/users/a%20b")
    );
    assert!(matches!(users.link(&[]), Err(Error::NoLink(reason)) if reason.contains("id")));
    let id = [(ComponentName::Pathname, "id", "7")];
    let path = users.generate(ComponentName::Pathname, &id);
    assert_eq!(path.as_deref(), Ok("/users/7"));
    let none = users.generate(ComponentName::Pathname, &[]);
    assert!(matches!(none, Err(Error::NoLink(reason)) if reason.contains("id")));
    let all = pattern("https://example.com/*");
    assert_eq!(all.covers(&users), Ok(Covering::Covered));
    assert_eq!(
        users.covers(&all),
        Ok(Covering::NotCovered(ComponentName::Pathname))
    );
    assert_eq!(users.covers(&users), Ok(Covering::Covered));
    let texts = users.counterexample(&all).unwrap().unwrap();
    assert_eq!(texts.hostname.as_deref(), Some("example.com"));
    assert_eq!(texts.pathname.as_deref(), Some("/"));
    assert_eq!(all.counterexample(&users), Ok(None));
    assert_eq!(users.overlaps(&all), Ok(Some(true)));
    let list = routes();
    assert_eq!(list.overlaps(0, &list, 1), Ok(Some(false)));
    assert_eq!(list.counterexample(2, &list, 0), Ok(None));
    let about = pattern("https://example.com/about");
    assert_eq!(users.overlaps(&about), Ok(Some(false)));
    assert_eq!(
        routes().covers(1, 2),
        Ok(Covering::NotCovered(ComponentName::Pathname))
    );
    let words = pattern("https://example.com/:word(\\w+\\b)");
    assert_eq!(users.overlaps(&words), Ok(None));
    assert_eq!(
        words.covers(&all),
        Ok(Covering::Unknown(Some(ComponentName::Pathname)))
    );
}

#[test]
fn a_list_knows_what_is_reached() {
    assert_eq!(UrlPatternList::new().reach_of_each().as_deref(), Ok("[]"));
    let mut list = UrlPatternList::new();
    for text in ["https://example.com/*", "https://example.com/a"] {
        list.push(text, None, PLAIN).unwrap();
    }
    let reach = list.reach_of_each().unwrap();
    assert!(reach.starts_with("[{") && reach.ends_with("},[0]]"));
    for text in ["\"protocol\":\"https\"", "\"hostname\":\"example.com\""] {
        assert_eq!(reach.matches(text).count(), 1);
    }
}

#[test]
fn a_list_finds_the_first() {
    let list = routes();
    let found = list
        .first_captures("https://example.com/books/42", None)
        .unwrap()
        .unwrap();
    assert_eq!(
        (found.index, found.get(ComponentName::Pathname, "isbn")),
        (1, Some("42"))
    );
    assert_eq!(list.first_captures("https://example.org/", None), Ok(None));
    let long = format!("https://example.com/users/{}", "x".repeat(5000));
    let found = list.first_captures(&long, None).unwrap().unwrap();
    assert_eq!(
        found.get(ComponentName::Pathname, "id").map(str::len),
        Some(5000)
    );
}

#[test]
fn lists_go_from_thread_to_thread() {
    let list = thread::spawn(routes).join().unwrap();
    assert_eq!(list.test(0, "https://example.com/users/7", None), Ok(true));
    thread::spawn(move || drop(list)).join().unwrap();
    let shared = Arc::new(Mutex::new(routes()));
    let threads: Vec<_> = (0..8)
        .map(|_| {
            let list = shared.clone();
            thread::spawn(move || {
                (0..500).all(|_| {
                    list.lock()
                        .unwrap()
                        .test(0, "https://example.com/users/7", None)
                        == Ok(true)
                })
            })
        })
        .collect();
    assert!(threads.into_iter().all(|it| it.join().unwrap()));
}

#[test]
fn threads_share_patterns() {
    let mut list = routes();
    let threads: Vec<_> = (0..8)
        .map(|thread| {
            let list = list.try_clone().unwrap();
            thread::spawn(move || {
                (0..5000).all(|each| {
                    let id = format!("{thread}{each}");
                    let found = list
                        .first_captures(&format!("https://example.com/books/{id}"), None)
                        .unwrap()
                        .unwrap();
                    found.index == 1 && found.get(ComponentName::Pathname, "isbn") == Some(&id)
                })
            })
        })
        .collect();
    let other = list.try_clone().unwrap();
    assert_eq!(
        list.push("https://example.org/", None, PLAIN),
        Err(Error::Shared)
    );
    assert!(threads.into_iter().all(|it| it.join().unwrap()));
    drop(other);
    list.push("https://example.org/", None, PLAIN).unwrap();
    assert_eq!(
        list.first_captures("https://example.org/", None)
            .unwrap()
            .unwrap()
            .index,
        3
    );
}
