//! Routers.
use std::thread;
use urlpattern_proved::{
    ComponentName, Error, PatternSource, Routed, UrlPatternInit, UrlPatternOptions,
    UrlPatternRouter,
};

/// The routes of a router, and requests.
const LINES: &str = include_str!("../../routes.txt");

fn pathname(text: &str) -> UrlPatternInit {
    UrlPatternInit {
        pathname: Some(text.into()),
        ..UrlPatternInit::default()
    }
}

fn routes_of_lines() -> UrlPatternRouter<usize> {
    let mut routes = UrlPatternRouter::new();
    let lines = LINES.lines().filter_map(|line| line.strip_prefix("route "));
    for (index, line) in lines.enumerate() {
        let (method, path) = line.split_once(' ').unwrap();
        if method == "*" {
            routes.insert_any(&pathname(path), index).unwrap();
        } else {
            routes.insert(method, &pathname(path), index).unwrap();
        }
    }
    routes
}

/// What a router returned, as the lines have it.
fn shown(routed: Result<Routed<usize>, Error>) -> String {
    match routed {
        Ok(Routed::Found(value, found)) => {
            assert_eq!(*value, found.index);
            match found.get(ComponentName::Pathname, "id") {
                Some(id) => format!("{value} {id}"),
                None => value.to_string(),
            }
        }
        Ok(Routed::MethodNotAllowed(methods)) => format!("405 {}", methods.join(", ")),
        Ok(Routed::NotFound) => "404".into(),
        Err(Error::NoPath) => "400".into(),
        Err(error) => error.to_string(),
    }
}

#[test]
fn each_request_has_its_answer() {
    let routes = routes_of_lines();
    for line in LINES.lines().filter(|line| !line.starts_with("route ")) {
        let mut words = line.splitn(3, ' ');
        let mut word = || words.next().unwrap();
        let (method, path, answer) = (word(), word(), word());
        assert_eq!(shown(routes.at(method, path)), answer, "{line}");
        if answer != "400" && !path.starts_with("//") {
            let base = Some("https://example.com");
            assert_eq!(shown(routes.at_url(method, path, base)), answer, "{line}");
        }
    }
}

#[test]
fn a_refused_route_is_not_inserted() {
    let mut routes = UrlPatternRouter::new();
    let users = pathname("/users/:id");
    assert_eq!(routes.insert_named("user", "GET", &users, 0), Ok(()));
    assert_eq!(
        routes.insert_named("user", "PUT", &users, 1),
        Err(Error::NameTaken)
    );
    for method in ["no token", ""] {
        assert_eq!(routes.insert(method, &users, 1), Err(Error::NotAMethod));
    }
    assert_eq!(
        routes.insert_with(
            Some("page"),
            None,
            PatternSource::Init(&users),
            UrlPatternOptions::default(),
            1
        ),
        Err(Error::NotAMethod)
    );
    assert!(matches!(
        routes.insert("GET", "https://example.com/{", 1),
        Err(Error::Refused { .. })
    ));
    assert_eq!(
        routes.insert("PUT", "https://example.com/users/:id", 1),
        Ok(())
    );
    assert_eq!((routes.get(1), routes.get(2)), (Some(&1), None));
}

#[test]
fn a_link_has_encoded_values() {
    let mut routes = UrlPatternRouter::new();
    assert_eq!(routes.link("user", &[]), Ok(None));
    assert_eq!(routes.at("GET", "/users/7"), Ok(Routed::NotFound));
    assert_eq!(routes.at("GET", "users"), Err(Error::NoPath));
    routes
        .insert_named("user", "GET", "https://example.com/users/:id", ())
        .unwrap();
    let groups = [(ComponentName::Pathname, "id", "a/b c")];
    assert_eq!(
        routes.link("user", &groups),
        Ok(Some("https://example.com/users/a%2Fb%20c".into()))
    );
    assert_eq!(routes.link("page", &groups), Ok(None));
    assert!(matches!(routes.link("user", &[]), Err(Error::NoLink(_))));
}

#[test]
fn threads_have_routers_of_the_same_routes() {
    let mut routes = routes_of_lines();
    let threads: Vec<_> = (0..8)
        .map(|number| {
            let own = routes.try_clone().unwrap();
            thread::spawn(move || {
                for n in (number..8_000).step_by(8) {
                    let path = format!("/users/{n}");
                    assert_eq!(shown(own.at("GET", &path)), format!("0 {n}"));
                }
            })
        })
        .collect();
    let shared = routes.insert_any(&pathname("/x"), 11);
    assert!(matches!(shared, Ok(()) | Err(Error::Shared)));
    for thread in threads {
        thread.join().unwrap();
    }
    if shared.is_err() {
        assert_eq!(routes.insert_any(&pathname("/x"), 11), Ok(()));
    }
}
