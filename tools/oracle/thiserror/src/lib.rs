//! A stand-in for the derive `Error` of thiserror: the published files need `std::error::Error`,
//! a `Display` (here the `Debug` text) and `From` for a variant with one `#[from]` field.

use proc_macro::{Delimiter, TokenStream, TokenTree};

#[proc_macro_derive(Error, attributes(error, from))]
pub fn derive_error(input: TokenStream) -> TokenStream {
    let (name, body) = name_and_body(input);
    let mut code = format!(
        "impl ::std::fmt::Display for {name} {{
            fn fmt(&self, f: &mut ::std::fmt::Formatter<'_>) -> ::std::fmt::Result {{
                ::std::fmt::Debug::fmt(self, f)
            }}
        }}
        impl ::std::error::Error for {name} {{}}"
    );
    for (variant, source) in from_variants(body) {
        code += &format!(
            "impl ::std::convert::From<{source}> for {name} {{
                fn from(source: {source}) -> {name} {{ {name}::{variant}(source) }}
            }}"
        );
    }
    code.parse().expect("the derived code is Rust")
}

/// The enum's name and what stands in its braces.
fn name_and_body(input: TokenStream) -> (String, TokenStream) {
    let mut tokens = input.into_iter();
    tokens.find(|token| token.to_string() == "enum").expect("the stand-in derives for an enum");
    let name = tokens.next().expect("an enum has a name").to_string();
    match tokens.next() {
        Some(TokenTree::Group(body)) if body.delimiter() == Delimiter::Brace => (name, body.stream()),
        _ => panic!("the stand-in derives for an enum without parameters"),
    }
}

/// The variants with a `#[from]` field: name and the field's type.
fn from_variants(body: TokenStream) -> Vec<(String, String)> {
    let mut found = Vec::new();
    let mut variant = String::new();
    for token in body {
        match token {
            TokenTree::Ident(name) => variant = name.to_string(),
            TokenTree::Group(fields) if fields.delimiter() == Delimiter::Parenthesis => {
                if let Some(source) = from_type(fields.stream()) {
                    found.push((variant.clone(), source));
                }
            }
            _ => {}
        }
    }
    found
}

/// The type after `#[from]`, where the fields of a variant begin with it.
fn from_type(fields: TokenStream) -> Option<String> {
    let mut tokens = fields.into_iter();
    if tokens.next()?.to_string() != "#" || tokens.next()?.to_string() != "[from]" {
        return None;
    }
    Some(tokens.collect::<TokenStream>().to_string())
}
