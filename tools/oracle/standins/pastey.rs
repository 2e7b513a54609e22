//! Stand-in for the crate `pastey`, the part of it that is used here.
//!
//! A type that a macro takes as `$T:ty` and hands on stands in an invisible bracket, and a second
//! macro that looks for the word `u8` does not find it there. `paste!` hands its tokens on with
//! these brackets opened. The published crate also joins names; the judged crate asks for none.

extern crate proc_macro;

use proc_macro::{Delimiter, Group, TokenStream, TokenTree};

#[proc_macro]
pub fn paste(input: TokenStream) -> TokenStream {
    open(input)
}

fn open(tokens: TokenStream) -> TokenStream {
    let mut out = TokenStream::new();
    for token in tokens {
        match token {
            TokenTree::Group(group) if group.delimiter() == Delimiter::None => {
                out.extend(open(group.stream()));
            }
            TokenTree::Group(group) => {
                let mut same = Group::new(group.delimiter(), open(group.stream()));
                same.set_span(group.span());
                out.extend([TokenTree::Group(same)]);
            }
            other => out.extend([other]),
        }
    }
    out
}
