//! What `darling run` does, by the derive of `darling`: the subjects behind the line `%%` of standard input, read by
//! the declaration of `examples/first.txt`.

use darling::FromDeriveInput;
use proc_macro2::TokenStream;
use std::error::Error;
use std::fmt::Write as _;
use std::io::{self, Read, Write};
use syn::parse::{Parse, ParseStream};
use syn::DeriveInput;

#[derive(FromDeriveInput)]
#[darling(attributes(my))]
struct Opts {
    name: String,
}

/// Structs, enums and unions to the end.
struct Subjects(Vec<DeriveInput>);

impl Parse for Subjects {
    fn parse(input: ParseStream) -> syn::Result<Subjects> {
        let mut subjects = Vec::new();
        while !input.is_empty() {
            subjects.push(input.parse()?);
        }
        Ok(Subjects(subjects))
    }
}

fn main() -> Result<(), Box<dyn Error>> {
    let mut text = String::new();
    io::stdin().read_to_string(&mut text)?;
    let (_declaration, subjects) = text.split_once("%%\n").ok_or("no line %%")?;
    let tokens: TokenStream = subjects.parse()?;
    let subjects: Subjects = syn::parse2(tokens)?;
    let mut report = String::new();
    for subject in &subjects.0 {
        match Opts::from_derive_input(subject) {
            Ok(opts) => writeln!(report, "ok {} Opts {{name: {:?}}}", subject.ident, opts.name)?,
            Err(error) => write_faults(&mut report, subject, error)?,
        }
    }
    io::stdout().write_all(report.as_bytes())?;
    Ok(())
}

fn write_faults(report: &mut String, subject: &DeriveInput, error: darling::Error) -> std::fmt::Result {
    let faults = error.flatten();
    writeln!(report, "err {} {}", subject.ident, faults.len())?;
    for fault in faults {
        writeln!(report, "  {:?} {fault}", fault.span())?;
    }
    Ok(())
}
