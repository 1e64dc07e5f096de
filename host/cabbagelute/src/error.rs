//! The errors, with upstream's variants and texts, and two variants of our own.

use crate::raw;
use std::error::Error;
use std::fmt;

/// Why a text could not be cut into tokens.
#[derive(Debug, PartialEq, Eq)]
pub enum LexError {
    /// A reference is not closed.
    MissingCloseVariable,
    /// A reference has a character that names cannot have.
    InvalidVariableChar(char),
}

impl fmt::Display for LexError {
    fn fmt(&self, f: &mut fmt::Formatter<'_>) -> fmt::Result {
        match self {
            LexError::MissingCloseVariable => f.write_str("Variable doesn't have a closing }"),
            LexError::InvalidVariableChar(c) => write!(f, "invalid char in variable name: {c}"),
        }
    }
}

impl Error for LexError {}

/// What was being resolved when an error was met.
#[derive(Debug, PartialEq, Eq, Clone)]
pub enum WhileResolving {
    /// A field of [`PkgConfig`](crate::PkgConfig), by its name there.
    Field(&'static str),
    /// The value of the variable with this name.
    Variable(String),
}

impl fmt::Display for WhileResolving {
    fn fmt(&self, f: &mut fmt::Formatter<'_>) -> fmt::Result {
        match self {
            WhileResolving::Field(field) => write!(f, "field {field}"),
            WhileResolving::Variable(name) => write!(f, "variable {name}"),
        }
    }
}

/// Why a text is refused.
#[derive(Debug, PartialEq, Eq)]
pub enum ParseError {
    /// The text could not be cut into tokens.
    Lex(LexError),
    /// What was expected, and the token that stands there: a text as `{:?}` shows it.
    Unexpected(&'static str, String),
    /// What was expected where the text ended.
    UnexpectedEof(&'static str),
    /// The key of an assignment has a character that names cannot have.
    InvalidVariableName(String),
    /// The key is assigned a second time.
    DuplicateVariable(String),
    /// The reference with this name has no value.
    UndefinedVariable(String, WhileResolving),
    /// A value is longer than 67,108,864 bytes.
    ContentTooLarge(WhileResolving),
    /// There is no field of this name.
    UnknownField(String),
    /// The field is given a second time.
    DuplicateField(String),
    /// A quote is not closed.
    UnterminatedQuote,
    /// The text has so many bytes, more than 65,535. Upstream has no such limit.
    TextTooLong(usize),
    /// The linked reader gave this number, which this crate has no meaning for. Only an archive of another version does.
    UnknownAnswer(u32),
}

impl fmt::Display for ParseError {
    fn fmt(&self, f: &mut fmt::Formatter<'_>) -> fmt::Result {
        match self {
            ParseError::Lex(error) => error.fmt(f),
            ParseError::Unexpected(expected, found) => write!(f, "expected {expected}, found {found}"),
            ParseError::UnexpectedEof(expected) => write!(f, "expected {expected}, but input ended"),
            ParseError::InvalidVariableName(key) => write!(f, "invalid variable name: {key}"),
            ParseError::DuplicateVariable(key) => write!(f, "duplicate variable: {key}"),
            ParseError::UndefinedVariable(name, place) => {
                write!(f, "undefined variable while resolving {place}: {name}")
            }
            ParseError::ContentTooLarge(place) => {
                write!(f, "expanded content is too large (while resolving {place})")
            }
            ParseError::UnknownField(key) => write!(f, "unknown field {key}"),
            ParseError::DuplicateField(key) => write!(f, "duplicate field {key}"),
            ParseError::UnterminatedQuote => f.write_str("unterminated quote"),
            ParseError::TextTooLong(bytes) => {
                write!(f, "text of {bytes} bytes is too long (at most {})", raw::LONGEST_TEXT)
            }
            ParseError::UnknownAnswer(number) => {
                write!(f, "the linked reader answered {number}: libexport.a is of another version")
            }
        }
    }
}

impl Error for ParseError {
    fn source(&self) -> Option<&(dyn Error + 'static)> {
        match self {
            // Shown as that error, so its source comes next.
            ParseError::Lex(error) => error.source(),
            _ => None,
        }
    }
}

impl From<LexError> for ParseError {
    fn from(error: LexError) -> Self {
        ParseError::Lex(error)
    }
}
