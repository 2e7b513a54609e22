//! Stand-in for the crate `seq_macro`, the part of it that is used here.
//!
//! `seq!(N in LO..HI { body })` writes the body once for each number of the range, with that number
//! in the place of the name N. Where the body has parts `#( .. )*`, the body is written once and
//! only those parts are repeated. `LO..=HI` takes HI in. All other tokens go through as they are.

extern crate proc_macro;

use proc_macro::token_stream::IntoIter;
use proc_macro::{Delimiter, Group, Literal, TokenStream, TokenTree};
use std::iter::Peekable;

type Tokens = Peekable<IntoIter>;

#[proc_macro]
pub fn seq(input: TokenStream) -> TokenStream {
    let mut tokens = input.into_iter().peekable();
    let name = word(&mut tokens);
    assert_eq!(word(&mut tokens), "in", "seq!: `in` after the name");
    let numbers = range(&mut tokens);
    let Some(TokenTree::Group(body)) = tokens.next() else {
        panic!("seq!: a body in brackets after the range");
    };
    if has_part(body.stream()) {
        repeat_parts(body.stream(), &name, &numbers)
    } else {
        repeat(body.stream(), &name, &numbers)
    }
}

/// `LO..HI` or `LO..=HI`, as its numbers.
fn range(tokens: &mut Tokens) -> Vec<usize> {
    let low = number(tokens);
    for _ in 0..2 {
        assert!(
            is_sign(tokens.next().as_ref(), '.'),
            "seq!: `..` after the low end"
        );
    }
    if is_sign(tokens.peek(), '=') {
        tokens.next();
        (low..=number(tokens)).collect()
    } else {
        (low..number(tokens)).collect()
    }
}

fn word(tokens: &mut Tokens) -> String {
    match tokens.next() {
        Some(TokenTree::Ident(ident)) => ident.to_string(),
        other => panic!("seq!: a word is wanted, not {other:?}"),
    }
}

fn number(tokens: &mut Tokens) -> usize {
    let text = tokens.next().map(|token| token.to_string());
    text.and_then(|text| text.parse().ok())
        .expect("seq!: the ends of the range are plain numbers")
}

fn is_sign(token: Option<&TokenTree>, sign: char) -> bool {
    matches!(token, Some(TokenTree::Punct(punct)) if punct.as_char() == sign)
}

/// The body once for each number.
fn repeat(body: TokenStream, name: &str, numbers: &[usize]) -> TokenStream {
    let bodies = numbers.iter().map(|&n| put(body.clone(), name, n));
    bodies.collect()
}

/// The tokens with the number in the place of the name, inside brackets too.
fn put(tokens: TokenStream, name: &str, n: usize) -> TokenStream {
    let put_one = |token| match token {
        TokenTree::Ident(ident) if ident.to_string() == name => {
            let mut literal = Literal::usize_unsuffixed(n);
            literal.set_span(ident.span());
            TokenTree::Literal(literal)
        }
        TokenTree::Group(group) => same_brackets(&group, put(group.stream(), name, n)),
        other => other,
    };
    tokens.into_iter().map(put_one).collect()
}

fn same_brackets(old: &Group, inner: TokenStream) -> TokenTree {
    let mut group = Group::new(old.delimiter(), inner);
    group.set_span(old.span());
    TokenTree::Group(group)
}

/// What stands inside a part `#( .. )*` that begins with this token, read to its end; nothing is
/// read where no such part begins.
fn take_part(token: &TokenTree, tokens: &mut Tokens) -> Option<TokenStream> {
    let mut ahead = tokens.clone();
    let Some(TokenTree::Group(group)) = ahead.next() else {
        return None;
    };
    let is_part = is_sign(Some(token), '#')
        && group.delimiter() == Delimiter::Parenthesis
        && is_sign(ahead.next().as_ref(), '*');
    if !is_part {
        return None;
    }
    *tokens = ahead;
    Some(group.stream())
}

fn has_part(body: TokenStream) -> bool {
    let mut tokens = body.into_iter().peekable();
    while let Some(token) = tokens.next() {
        let found = match &token {
            TokenTree::Group(group) => has_part(group.stream()),
            _ => take_part(&token, &mut tokens).is_some(),
        };
        if found {
            return true;
        }
    }
    false
}

/// The body once, with its parts `#( .. )*` repeated where they stand.
fn repeat_parts(body: TokenStream, name: &str, numbers: &[usize]) -> TokenStream {
    let mut out = TokenStream::new();
    let mut tokens = body.into_iter().peekable();
    while let Some(token) = tokens.next() {
        if let Some(part) = take_part(&token, &mut tokens) {
            out.extend(repeat(part, name, numbers));
        } else if let TokenTree::Group(group) = &token {
            let inner = repeat_parts(group.stream(), name, numbers);
            out.extend([same_brackets(group, inner)]);
        } else {
            out.extend([token]);
        }
    }
    out
}
