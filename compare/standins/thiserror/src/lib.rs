//! Stands in for thiserror: derive(Error) for an enum whose variants each carry an #[error("..")] text
//! and hold nothing, or one value that the text names as {0}.

use proc_macro::{Delimiter, TokenStream, TokenTree};

#[proc_macro_derive(Error, attributes(error))]
pub fn derive_error(input: TokenStream) -> TokenStream {
    let (name, body) = enum_of(input);
    let arms: String = variants(body).iter().map(arm).collect();
    let code = format!(
        "impl std::fmt::Display for {name} {{
            fn fmt(&self, f: &mut std::fmt::Formatter<'_>) -> std::fmt::Result {{
                match self {{ {arms} }}
            }}
        }}
        impl std::error::Error for {name} {{}}"
    );
    code.parse().expect("the written impl is Rust")
}

/// The enum's name and what stands in its braces.
fn enum_of(input: TokenStream) -> (String, TokenStream) {
    let mut tokens = input.into_iter();
    let is_enum = |t: &TokenTree| matches!(t, TokenTree::Ident(word) if word.to_string() == "enum");
    tokens
        .find(is_enum)
        .expect("derive(Error) stands at an enum");
    let name = tokens.next().expect("the enum has a name").to_string();
    let body = tokens.find_map(braced).expect("the enum has variants");
    (name, body)
}

fn braced(token: TokenTree) -> Option<TokenStream> {
    match token {
        TokenTree::Group(group) if group.delimiter() == Delimiter::Brace => Some(group.stream()),
        _ => None,
    }
}

/// A variant with its text, a string literal as written.
struct Variant {
    name: String,
    text: String,
    holds_value: bool,
}

fn variants(body: TokenStream) -> Vec<Variant> {
    let mut found: Vec<Variant> = Vec::new();
    let mut text = None;
    for token in body {
        match token {
            TokenTree::Group(group) if group.delimiter() == Delimiter::Bracket => {
                text = literal(group.stream());
            }
            TokenTree::Group(_) => {
                let holder = found.last_mut().expect("a value stands behind its variant");
                holder.holds_value = true;
            }
            TokenTree::Ident(name) => found.push(Variant {
                name: name.to_string(),
                text: text.take().expect("each variant has an error text"),
                holds_value: false,
            }),
            _ => {}
        }
    }
    found
}

/// The match arm that writes a variant's text.
fn arm(variant: &Variant) -> String {
    let Variant { name, text, .. } = variant;
    match variant.holds_value {
        true => format!("Self::{name}(value) => write!(f, {text}, value),"),
        false => format!("Self::{name} => write!(f, {text}),"),
    }
}

/// The literal of error("..").
fn literal(attribute: TokenStream) -> Option<String> {
    attribute.into_iter().find_map(|token| match token {
        TokenTree::Group(group) => Some(group.stream().to_string()),
        _ => None,
    })
}
