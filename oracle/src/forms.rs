//! Tokens, nodes and refusals with byte ranges, and how the line protocol writes each of them.

use std::fmt::{self, Display, Formatter};
use std::ops::Range;

pub type Span = Range<usize>;

/// Where an answer came from: the given Rust, or code written from document 01.
#[derive(Clone, Copy, Debug, PartialEq)]
pub enum Side {
    Rust,
    Document,
}

/// One line of answer.
pub struct Answer {
    pub side: Side,
    pub line: String,
}

/// A refusal by document 01's number, with what the last column of its table says.
#[derive(Clone, Debug, PartialEq)]
pub struct Refusal {
    pub number: u8,
    pub carries: Carries,
}

#[derive(Clone, Debug, PartialEq)]
pub enum Carries {
    Nothing,
    Number(u64),
    Span(Span),
    SpanAndSet(Span, Vec<&'static str>),
}

impl Refusal {
    pub fn bare(number: u8) -> Refusal {
        Refusal { number, carries: Carries::Nothing }
    }

    pub fn with_number(number: u8, value: u64) -> Refusal {
        Refusal { number, carries: Carries::Number(value) }
    }

    pub fn with_span(number: u8, span: Span) -> Refusal {
        Refusal { number, carries: Carries::Span(span) }
    }

    /// Document 01 says which refusals the given Rust lacks; the rest are its own.
    pub fn side(&self) -> Side {
        match self.number {
            1 | 2 | 14..=18 | 20 | 21 => Side::Document,
            _ => Side::Rust,
        }
    }
}

impl Display for Refusal {
    fn fmt(&self, f: &mut Formatter<'_>) -> fmt::Result {
        write!(f, "refused {}", self.number)?;
        match &self.carries {
            Carries::Nothing => Ok(()),
            Carries::Number(value) => write!(f, " {value}"),
            Carries::Span(span) => write!(f, " {span:?}"),
            Carries::SpanAndSet(span, set) => write!(f, " {span:?} {}", set.join(",")),
        }
    }
}

/// The byte ranges of a reference's two names, each without its prefix.
#[derive(Clone, Debug, PartialEq)]
pub struct Reference {
    pub document: Option<Span>,
    pub name: Span,
}

impl Display for Reference {
    fn fmt(&self, f: &mut Formatter<'_>) -> fmt::Result {
        match &self.document {
            Some(document) => write!(f, "{document:?} {:?}", self.name),
            None => write!(f, "- {:?}", self.name),
        }
    }
}

#[derive(Clone, Debug, PartialEq)]
pub enum Token {
    And,
    Or,
    With,
    Plus,
    Open,
    Close,
    Licence(&'static str),
    Exception(&'static str),
    LicenseRef(Reference),
    AdditionRef(Reference),
    Unknown(Span),
}

impl Token {
    /// The ranges of a token that names something unlisted; an unknown run is a reference with no document part.
    pub fn reference(&self) -> Option<Reference> {
        match self {
            Token::LicenseRef(reference) | Token::AdditionRef(reference) => Some(reference.clone()),
            Token::Unknown(run) => Some(Reference { document: None, name: run.clone() }),
            _ => None,
        }
    }
}

impl Display for Token {
    fn fmt(&self, f: &mut Formatter<'_>) -> fmt::Result {
        match self {
            Token::And => write!(f, "AND"),
            Token::Or => write!(f, "OR"),
            Token::With => write!(f, "WITH"),
            Token::Plus => write!(f, "+"),
            Token::Open => write!(f, "("),
            Token::Close => write!(f, ")"),
            Token::Licence(name) => write!(f, "licence {name}"),
            Token::Exception(name) => write!(f, "exception {name}"),
            Token::LicenseRef(reference) => write!(f, "licenseref {reference}"),
            Token::AdditionRef(reference) => write!(f, "additionref {reference}"),
            Token::Unknown(run) => write!(f, "unknown {run:?}"),
        }
    }
}

/// A token and where it stands.
#[derive(Clone, Debug, PartialEq)]
pub struct Word {
    pub token: Token,
    pub span: Span,
}

impl Word {
    /// Whether the word is a leaf's licence, where all before it was read. An unknown run after WITH is an addition.
    pub fn begins_leaf(&self, before: Option<&Word>) -> bool {
        match self.token {
            Token::Licence(_) | Token::LicenseRef(_) => true,
            Token::Unknown(_) => before.is_none_or(|word| word.token != Token::With),
            _ => false,
        }
    }
}

/// Each word with the one before it.
pub fn with_before(words: &[Word]) -> impl Iterator<Item = (Option<&Word>, &Word)> {
    words.iter().enumerate().map(|(place, word)| (place.checked_sub(1).map(|before| &words[before]), word))
}

/// A licence or an addition: a listed name or a reference.
#[derive(Clone, Debug, PartialEq)]
pub enum Term {
    Listed(&'static str),
    Reference(Reference),
}

impl Display for Term {
    fn fmt(&self, f: &mut Formatter<'_>) -> fmt::Result {
        match self {
            Term::Listed(name) => write!(f, "listed {name}"),
            Term::Reference(reference) => write!(f, "ref {reference}"),
        }
    }
}

#[derive(Clone, Debug, PartialEq)]
pub struct Leaf {
    pub licence: Term,
    pub plus: bool,
    pub addition: Option<Term>,
    pub span: Span,
}

impl Display for Leaf {
    fn fmt(&self, f: &mut Formatter<'_>) -> fmt::Result {
        let plus = if self.plus { '+' } else { '-' };
        write!(f, "leaf {} {plus} ", self.licence)?;
        match &self.addition {
            Some(addition) => write!(f, "{addition}")?,
            None => write!(f, "none")?,
        }
        write!(f, " {:?}", self.span)
    }
}

#[derive(Clone, Debug, PartialEq)]
pub enum Node {
    And,
    Or,
    Leaf(Leaf),
}

impl Display for Node {
    fn fmt(&self, f: &mut Formatter<'_>) -> fmt::Result {
        match self {
            Node::And => write!(f, "AND"),
            Node::Or => write!(f, "OR"),
            Node::Leaf(leaf) => leaf.fmt(f),
        }
    }
}
