//! Stand-in for the derive of `thiserror`: enums whose cases carry no fields,
//! each with its text in an `error` attribute. That is all the published files
//! ask for; anything else does not compile.

use proc_macro::{Delimiter, Group, TokenStream, TokenTree};

#[proc_macro_derive(Error, attributes(error))]
pub fn derive_error(input: TokenStream) -> TokenStream {
    let (name, body) = name_and_body(input);
    let arms: String = cases(body)
        .into_iter()
        .map(|(case, text)| format!("{name}::{case} => out.write_str({text}),"))
        .collect();
    format!(
        "impl ::std::fmt::Display for {name} {{
            fn fmt(&self, out: &mut ::std::fmt::Formatter<'_>) -> ::std::fmt::Result {{
                match self {{ {arms} }}
            }}
        }}
        impl ::std::error::Error for {name} {{}}"
    )
    .parse()
    .expect("the text above is Rust")
}

/// The word after `enum`, and the braces after that word.
fn name_and_body(input: TokenStream) -> (String, Group) {
    let mut tokens = input
        .into_iter()
        .skip_while(|token| token.to_string() != "enum")
        .skip(1);
    let name = tokens.next().expect("an enum has a name").to_string();
    match tokens.next() {
        Some(TokenTree::Group(body)) if body.delimiter() == Delimiter::Brace => (name, body),
        _ => panic!("the stand-in takes enums without parameters"),
    }
}

/// Each case with the literal of its `error` attribute. Other attributes (doc
/// comments) are passed over.
fn cases(body: Group) -> Vec<(String, String)> {
    let mut found = Vec::new();
    let mut text = None;
    for token in body.stream() {
        match token {
            TokenTree::Group(group) => text = error_text(&group).or(text),
            TokenTree::Ident(case) => {
                let text = text.take().expect("each case has an error text");
                found.push((case.to_string(), text));
            }
            _ => {}
        }
    }
    found
}

/// The literal of `[error("...")]`, where the group is one.
fn error_text(attribute: &Group) -> Option<String> {
    let mut tokens = attribute.stream().into_iter();
    if tokens.next()?.to_string() != "error" {
        return None;
    }
    match tokens.next()? {
        TokenTree::Group(text) => Some(text.stream().to_string()),
        _ => None,
    }
}
