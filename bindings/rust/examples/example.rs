//! Prints what each group of a pattern captures of a URL.
use std::{env, process};
use urlpattern_proved::{Error, UrlPattern, UrlPatternOptions};

fn main() -> Result<(), Error> {
    let words: Vec<String> = env::args().skip(1).collect();
    let [pattern, url] = &words[..] else {
        eprintln!("usage: example PATTERN URL");
        process::exit(2);
    };
    let options = UrlPatternOptions::default();
    let pattern = UrlPattern::from_constructor_string(pattern, None, options)?;
    let Some(captures) = pattern.captures(url, None)? else {
        process::exit(1);
    };
    for (component, name, text) in captures.iter() {
        if let Some(text) = text {
            println!("{} {name}: {text}", component.as_str());
        }
    }
    Ok(())
}
