//! Stands in for the crate `paste`, of which the sources use `item!`: joins the names in `[< … >]` to one.
extern crate proc_macro;
use proc_macro::{Delimiter, Group, Ident, TokenStream, TokenTree};

#[proc_macro]
pub fn item(input: TokenStream) -> TokenStream {
    joined(input)
}

fn joined(tokens: TokenStream) -> TokenStream {
    tokens.into_iter().map(token).collect()
}

fn token(token: TokenTree) -> TokenTree {
    let group = match token {
        TokenTree::Group(group) => group,
        other => return other,
    };
    if let Some(name) = name(&group) {
        return TokenTree::Ident(name);
    }
    let mut inner = Group::new(group.delimiter(), joined(group.stream()));
    inner.set_span(group.span());
    TokenTree::Group(inner)
}

/// The one name that a group `[< a b c >]` stands for.
fn name(group: &Group) -> Option<Ident> {
    let tokens: Vec<TokenTree> = group.stream().into_iter().collect();
    let (first, last) = (tokens.first()?.to_string(), tokens.last()?.to_string());
    if group.delimiter() != Delimiter::Bracket || first != "<" || last != ">" {
        return None;
    }
    let parts = &tokens[1..tokens.len() - 1];
    let text: String = parts.iter().map(|part| part.to_string()).collect();
    Some(Ident::new(&text, parts.first()?.span()))
}
