//! What `syn` has no list for.

use proc_macro2::TokenStream;
use syn::parse::{Parse, ParseStream};
use syn::{parenthesized, token, DeriveInput, Expr, Lit, Path, Token};

/// Structs, enums and unions to the end.
pub struct Items(pub Vec<DeriveInput>);

impl Parse for Items {
    fn parse(input: ParseStream) -> syn::Result<Items> {
        let mut items = Vec::new();
        while !input.is_empty() {
            items.push(input.parse()?);
        }
        Ok(Items(items))
    }
}

/// A nested item, as `darling` 0.24 reads it: its value is an expression.
#[allow(dead_code)]
pub enum Nested {
    Lit(Lit),
    Path(Path),
    List(Path, TokenStream),
    NameValue(Path, Expr),
}

impl Parse for Nested {
    fn parse(input: ParseStream) -> syn::Result<Nested> {
        if input.peek(Lit) {
            return input.parse().map(Nested::Lit);
        }
        let path = Path::parse_mod_style(input)?;
        if input.peek(token::Paren) {
            let content;
            parenthesized!(content in input);
            return Ok(Nested::List(path, content.parse()?));
        }
        if input.peek(Token![=]) {
            input.parse::<Token![=]>()?;
            return Ok(Nested::NameValue(path, input.parse()?));
        }
        Ok(Nested::Path(path))
    }
}
