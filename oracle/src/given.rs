//! What the given Rust answers: tokens, nodes, canonical text and the least choice.

use spdx::error::{ParseError, Reason};
use spdx::expression::{ExprNode, ExpressionReq, MinimizeError, Operator};
use spdx::lexer::{Lexer, LexerToken, Token as GivenToken};
use spdx::{AdditionItem, Expression, LicenseItem, Licensee, ParseMode};

use crate::forms::{Carries, Leaf, Node, Reference, Refusal, Span, Term, Token, Word, with_before};

pub const STRICT: u8 = 0;
pub const LAX: u8 = 15;
pub const LARGEST_MODE: u8 = 31;

/// The given crate's mode for the protocol's number.
pub fn mode(flags: u8) -> ParseMode {
    ParseMode {
        allow_slash_as_or_operator: flags & 1 != 0,
        allow_imprecise_license_names: flags & 2 != 0,
        allow_postfix_plus_on_gpl: flags & 4 != 0,
        allow_deprecated: flags & 8 != 0,
        allow_unknown: flags & 16 != 0,
    }
}

/// The token from `place` on, which must be a character's boundary; none at the end.
pub fn step(text: &str, place: usize, flags: u8) -> Result<Option<Word>, Refusal> {
    let moved = |span: Span| span.start + place..span.end + place;
    match Lexer::new_mode(&text[place..], mode(flags)).next() {
        None => Ok(None),
        Some(Ok(lexed)) => Ok(Some(Word { span: moved(lexed.span.clone()), ..word(text, lexed) })),
        Some(Err(error)) => Err(refusal(ParseError { span: moved(error.span), ..error })),
    }
}

/// All words up to the end, or up to the lexer's refusal, which then stands beside them.
pub fn words(text: &str, flags: u8) -> (Vec<Word>, Option<Refusal>) {
    let mut words = Vec::new();
    for lexed in Lexer::new_mode(text, mode(flags)) {
        match lexed {
            Ok(lexed) => words.push(word(text, lexed)),
            Err(error) => return (words, Some(refusal(error))),
        }
    }
    (words, None)
}

fn word(text: &str, lexed: LexerToken<'_>) -> Word {
    let part = |part: &str| range_in(text, part);
    let reference = |document: Option<&str>, name| Reference { document: document.map(part), name: part(name) };
    let token = match lexed.token {
        GivenToken::Spdx(id) => Token::Licence(id.name),
        GivenToken::Exception(id) => Token::Exception(id.name),
        GivenToken::LicenseRef { doc_ref, lic_ref } => Token::LicenseRef(reference(doc_ref, lic_ref)),
        GivenToken::AdditionRef { doc_ref, add_ref } => Token::AdditionRef(reference(doc_ref, add_ref)),
        GivenToken::Unknown(run) => Token::Unknown(part(run)),
        GivenToken::Plus => Token::Plus,
        GivenToken::OpenParen => Token::Open,
        GivenToken::CloseParen => Token::Close,
        GivenToken::With => Token::With,
        GivenToken::And => Token::And,
        GivenToken::Or => Token::Or,
    };
    Word { token, span: lexed.span }
}

/// The lexer lends parts of the text, so their addresses tell where they stand.
fn range_in(text: &str, part: &str) -> Span {
    let start = part.as_ptr() as usize - text.as_ptr() as usize;
    start..start + part.len()
}

fn refusal(error: ParseError) -> Refusal {
    let number = match error.reason {
        Reason::InvalidCharacters => 3,
        Reason::UnknownTerm => 4,
        Reason::SeparatedPlus => 5,
        Reason::Unexpected(expected) => {
            let set = expected.iter().map(|member| set_member(member)).collect();
            return Refusal { number: 6, carries: Carries::SpanAndSet(error.span, set) };
        }
        Reason::UnopenedParens => 7,
        Reason::UnclosedParens => 8,
        Reason::Empty => 9,
        Reason::DeprecatedLicenseId => 10,
        Reason::GnuNoPlus => 11,
        Reason::GnuPlusWithSuffix => 12,
        Reason::UnknownLicense => 13,
        Reason::UnknownException => unreachable!("the given parser never gives this reason"),
    };
    Refusal::with_span(number, error.span)
}

fn set_member(member: &'static str) -> &'static str {
    match member {
        "<license>" => "licence",
        "<addition>" => "addition",
        other => other,
    }
}

pub fn parse(text: &str, flags: u8) -> Result<Expression, Refusal> {
    Expression::parse_mode(text, mode(flags)).map_err(refusal)
}

/// The nodes of an expression, with the byte ranges of `words`, which are those of the same text and mode.
pub fn nodes(text: &str, expression: &Expression, words: &[Word]) -> Vec<Node> {
    let mut origins = origins(words).into_iter();
    let nodes = expression
        .iter()
        .map(|node| match node {
            ExprNode::Op(Operator::And) => Node::And,
            ExprNode::Op(Operator::Or) => Node::Or,
            ExprNode::Req(asked) => Node::Leaf(leaf(text, asked, origins.next().expect("a word for each leaf"))),
        })
        .collect();
    assert!(origins.next().is_none(), "a leaf for each word");
    nodes
}

/// The words that a leaf was made from.
struct Origin<'w> {
    licence: &'w Word,
    addition: Option<&'w Word>,
}

fn origins(words: &[Word]) -> Vec<Origin<'_>> {
    let mut origins: Vec<Origin<'_>> = Vec::new();
    for (before, word) in with_before(words) {
        match word.token {
            _ if word.begins_leaf(before) => origins.push(Origin { licence: word, addition: None }),
            Token::Exception(_) | Token::AdditionRef(_) | Token::Unknown(_) => {
                // In unknown mode WITH may follow an unknown addition, and the last addition wins.
                origins.last_mut().expect("a licence before its addition").addition = Some(word);
            }
            _ => {}
        }
    }
    origins
}

fn leaf(text: &str, asked: &ExpressionReq, origin: Origin<'_>) -> Leaf {
    let span = asked.span.start as usize..asked.span.end as usize;
    assert_eq!(span, origin.licence.span, "a leaf's span is its licence token's");
    let (licence, plus) = match &asked.req.license {
        LicenseItem::Spdx { id, or_later } => (Term::Listed(id.name), *or_later),
        LicenseItem::Other(held) => (reference(text, origin.licence, &held.doc_ref, &held.lic_ref), false),
    };
    let addition = asked.req.addition.as_ref().map(|addition| match addition {
        AdditionItem::Spdx(id) => Term::Listed(id.name),
        AdditionItem::Other(held) => {
            let word = origin.addition.expect("a word for each addition");
            reference(text, word, &held.doc_ref, &held.add_ref)
        }
    });
    Leaf { licence, plus, addition, span }
}

/// The word's ranges, checked to hold the strings that the given parser has copied.
fn reference(text: &str, word: &Word, document: &Option<String>, name: &str) -> Term {
    let reference = word.token.reference().expect("a reference's word");
    let document_in_text = reference.document.clone().map(|range| &text[range]);
    assert_eq!(document_in_text, document.as_deref(), "the document part's range");
    assert_eq!(&text[reference.name.clone()], name, "the name's range");
    Term::Reference(reference)
}

/// The canonical text, or none where it equals the text.
pub fn canonical(text: &str) -> Result<Option<String>, Refusal> {
    Expression::canonicalize(text).map_err(refusal)
}

/// The least mask over the found licensees, by the given minimizer. `accepted` is the whole list, `found` the places
/// in it of those that count; the caller has seen to it that the search ends soon.
pub fn minimized(expression: &Expression, accepted: &[&str], found: &[usize]) -> Result<u64, Refusal> {
    let accepted: Vec<Licensee> = accepted.iter().map(|body| Licensee::parse(body).expect("a checked body")).collect();
    match expression.minimized_requirements(&accepted) {
        Ok(chosen) => Ok(chosen.iter().fold(0, |mask, asked| {
            let bit = found.iter().position(|place| accepted[*place].as_ref() == asked);
            mask | 1 << bit.expect("the choice is among the found")
        })),
        Err(MinimizeError::RequirementsUnmet) => Err(Refusal::bare(19)),
        Err(MinimizeError::TooManyRequirements(count)) => Err(Refusal::with_number(18, count as u64)),
    }
}
