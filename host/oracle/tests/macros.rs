//! What our stand-in for upstream's derive macros gives, on upstream's own errors.

use cuddld_pkg_config::{DiscoverError, LexError, ParseError, PkgConfig};
use std::error::Error;

#[test]
fn display_follows_the_attributes() {
    let shown = |text: &str| PkgConfig::parse(text).unwrap_err().to_string();
    assert_eq!(shown("${a"), "Variable doesn't have a closing }");
    assert_eq!(shown("${é}"), "invalid char in variable name: é");
    assert_eq!(shown("a b"), "expected : or =, found \"b\"");
    assert_eq!(shown("a"), "expected : or =, but input ended");
    assert_eq!(shown("a=${b}"), "undefined variable while resolving variable a: b");
    assert_eq!(shown("Libs.private: ${b}"), "undefined variable while resolving field libs_private: b");
    assert_eq!(shown("Libs: '"), "unterminated quote");
}

#[test]
fn transparent_gives_from_and_source_gives_the_source() {
    assert_eq!(
        ParseError::from(LexError::MissingCloseVariable),
        ParseError::Lex(LexError::MissingCloseVariable)
    );
    assert!(ParseError::from(LexError::MissingCloseVariable).source().is_none());
    let cause = std::io::Error::other("cause");
    let error = DiscoverError::ListDir("there".into(), cause);
    assert_eq!(error.to_string(), "failed to list directory \"there\"");
    assert_eq!(error.source().unwrap().to_string(), "cause");
}
