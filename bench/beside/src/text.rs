//! The texts: each as `crates/bench` makes it.

/// What a text is read as.
#[derive(Clone, Copy)]
pub enum List {
    Tokens,
    Items,
    Paths,
    Exprs,
    Nested,
}

impl List {
    pub fn of_what(self) -> &'static str {
        match self {
            List::Tokens => "trees",
            _ => "items",
        }
    }
}

/// A text that is only lexed, where there is such a workload.
pub fn lexed(workload: &str, size: usize) -> Option<String> {
    let unit = match workload {
        "marks" => "+-*/%^!&|=<>@.,;:#$?~ ",
        "names" => "identifier_1 x\n",
        "strings" => "\"a string\\n\" ",
        "groups" => "(a[b{c}d]e) ",
        _ => return None,
    };
    Some(filled("", unit, "", size))
}

/// A text that is parsed, where there is such a workload.
pub fn parsed(workload: &str, size: usize) -> Option<(List, String)> {
    let (list, head, unit, tail) = match workload {
        "structs" => (List::Items, "", "struct S<T: A> where T: B { a: T, b: u8 } ", ""),
        "enums" => (List::Items, "", "pub enum E { A, B(C) = 1, D { e: F } } ", ""),
        "attributes" => (List::Items, "", "#[a(b = 1)] ", "struct S;"),
        "fields" => (List::Items, "struct S {", "a: A, ", "}"),
        "paths" => (List::Paths, "", "a::b::C, ", ""),
        "types" => (List::Paths, "", "A<&'a [B; 8], fn() -> C, dyn D>, ", ""),
        "nested_items" => (List::Nested, "", "a, b(c), d = -1, e = f + g, ", ""),
        "names" => (List::Exprs, "", "a, ", ""),
        "literals" => (List::Exprs, "", "1_000u8, 1.5e10, 'a', \"a\", true, ", ""),
        "operators" => (List::Exprs, "", "a + b * c == -d && e || !f, ", ""),
        "postfixes" => (List::Exprs, "", "a.b(c, d)?[0].e, ", ""),
        "closures" => (List::Exprs, "", "|a, b: &B<C>| -> D { a; b }, ", ""),
        "groups" => (List::Exprs, "", "[a, (b, c), [d; 2], {e; f}], ", ""),
        _ => return None,
    };
    Some((list, filled(head, unit, tail, size)))
}

/// The unit, again and again, between the head and the tail.
fn filled(head: &str, unit: &str, tail: &str, size: usize) -> String {
    let turns = (size - head.len() - tail.len()) / unit.len();
    // not by `repeat`: the program `bench` grows its text piece by piece too
    let mut text = String::from(head);
    for _ in 0..turns {
        text.push_str(unit);
    }
    text.push_str(tail);
    text
}
