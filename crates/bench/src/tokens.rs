//! Tokenizes texts.

use crate::case::Case;
use crate::recorded::{Fault, optional_text, text};
use serde_json::Value;
use urlpattern_parser::tokenizer::{Token, TokenizePolicy, tokenize};

/// Whether the tokens of a text are the recorded ones.
pub fn is_same(case: &Case<'_>) -> Result<bool, Fault> {
    let policy = match optional_text(case.question, "policy") {
        Some("strict") | None => TokenizePolicy::Strict,
        Some("lenient") => TokenizePolicy::Lenient,
        Some(_) => return Err(Fault::NoCase),
    };
    let found = tokenize(case.alloc, text(case.question, "input")?, policy);
    case.is_answer(found, |tokens, recorded| Ok(are_tokens(tokens, recorded)))
}

/// Whether the tokens are the recorded ones.
fn are_tokens(tokens: &[Token<'_>], recorded: &Value) -> bool {
    let Value::Array(recorded) = recorded else {
        return false;
    };
    for (token, recorded) in tokens.iter().zip(recorded) {
        if !is_token(token, recorded) {
            return false;
        }
    }
    tokens.len() == recorded.len()
}

/// Whether a token has the recorded kind, place and value.
fn is_token(token: &Token<'_>, recorded: &Value) -> bool {
    recorded.get(0).and_then(Value::as_str) == Some(token.kind.name())
        && recorded.get(1).and_then(Value::as_u64) == Some(token.index as u64)
        && recorded.get(2).and_then(Value::as_str) == Some(token.value)
}
