//! Lexes one long text by `proc_macro2`, or lexes and parses it by `syn`: `beside lex WORKLOAD MEGABYTES`, and
//! `parse` in place of `lex`. The texts are those of the program `bench`. Spans are kept on this side too.

mod items;
mod text;

use items::{Items, Nested};
use proc_macro2::TokenStream;
use std::env;
use std::process::ExitCode;
use std::thread;
use syn::parse::{Parse, Parser};
use syn::punctuated::Punctuated;
use syn::{Expr, Token, TypePath};
use text::List;

/// Room for trees as deep as those of `bench` may be, which `syn` reads and drops by calls.
const STACK: usize = 1 << 30;

fn main() -> ExitCode {
    let words: Vec<String> = env::args().skip(1).collect();
    let [stage, workload, megabytes] = words.as_slice() else {
        return ExitCode::from(2);
    };
    let Ok(megabytes) = megabytes.parse::<usize>() else {
        return ExitCode::from(2);
    };
    let size = megabytes << 20;
    let text = match stage.as_str() {
        "lex" => text::lexed(workload, size).map(|text| (List::Tokens, text)),
        "parse" => text::parsed(workload, size),
        _ => None,
    };
    let Some((list, text)) = text else {
        return ExitCode::from(2);
    };
    let work = move || run(list, &text);
    let Ok(Ok(())) = thread::Builder::new().stack_size(STACK).spawn(work).map(|it| it.join()) else {
        return ExitCode::FAILURE;
    };
    ExitCode::SUCCESS
}

fn run(list: List, text: &str) {
    match text.parse().map_err(syn::Error::from).and_then(|tokens| count(list, tokens)) {
        Ok(count) => println!("{} bytes, {count} {}", text.len(), list.of_what()),
        Err(_) => println!("{} bytes, refused", text.len()),
    }
}

/// How many the tokens are read as. The trees are let go here.
fn count(list: List, tokens: TokenStream) -> syn::Result<usize> {
    match list {
        List::Tokens => Ok(tokens.into_iter().count()),
        List::Items => syn::parse2::<Items>(tokens).map(|items| items.0.len()),
        List::Paths => between_commas::<TypePath>(tokens),
        List::Exprs => between_commas::<Expr>(tokens),
        List::Nested => between_commas::<Nested>(tokens),
    }
}

fn between_commas<T: Parse>(tokens: TokenStream) -> syn::Result<usize> {
    let items = Punctuated::<T, Token![,]>::parse_terminated.parse2(tokens)?;
    Ok(items.len())
}
