//! Stand-in for the macros of `modular_bitfield`, on std's `proc_macro` alone: `#[bitfield]` for structs of one
//! byte, `derive(Specifier)` for enums whose variants number a power of two.

extern crate proc_macro;

use proc_macro::{Delimiter, Group, TokenStream, TokenTree};

/// A field of the struct: its name, its type, whether it is skipped, and the width that `#[bits = N]` asserts.
struct Field {
    name: String,
    kind: String,
    skipped: bool,
    bits: Option<String>,
}

impl Field {
    fn specifier(&self) -> String {
        format!("<{} as ::modular_bitfield::Specifier>", self.kind)
    }
}

/// `#[bitfield]`: one kept byte, `new`, `from_bytes`, `into_bytes`, and a reader for each field not skipped.
#[proc_macro_attribute]
pub fn bitfield(_options: TokenStream, item: TokenStream) -> TokenStream {
    let tokens: Vec<TokenTree> = item.into_iter().collect();
    let at = keyword(&tokens, "struct");
    let head: TokenStream = tokens[..at].iter().cloned().collect();
    let name = tokens[at + 1].to_string();
    let fields = fields(body(&tokens));
    let (readers, widths) = (readers(&fields), widths(&fields));
    let text = format!(
        "{head} struct {name} {{ bytes: [u8; 1] }}
         impl {name} {{
             pub const fn new() -> Self {{ Self {{ bytes: [0] }} }}
             pub const fn from_bytes(bytes: [u8; 1]) -> Self {{ Self {{ bytes }} }}
             pub const fn into_bytes(self) -> [u8; 1] {{ self.bytes }}
             {readers}
         }}
         {widths}"
    );
    text.parse().unwrap()
}

/// `derive(Specifier)`: an enum's value from its bits, by its place in the order of the variants.
#[proc_macro_derive(Specifier)]
pub fn specifier(item: TokenStream) -> TokenStream {
    let tokens: Vec<TokenTree> = item.into_iter().collect();
    let name = tokens[keyword(&tokens, "enum") + 1].to_string();
    let variants: Vec<String> = split(body(&tokens).stream()).iter().map(|v| variant(v)).collect();
    assert!(variants.len().is_power_of_two(), "{name} has {} variants", variants.len());
    let width = variants.len().trailing_zeros();
    let arms: String = variants.iter().enumerate().map(|(i, v)| format!("{i} => {name}::{v},")).collect();
    let text = format!(
        "impl ::modular_bitfield::Specifier for {name} {{
             const BITS: usize = {width};
             type InOut = {name};
             fn from_bits(bits: u8) -> {name} {{ match bits {{ {arms} _ => unreachable!() }} }}
         }}"
    );
    text.parse().unwrap()
}

/// The readers of the fields, each at the sum of the widths before it.
fn readers(fields: &[Field]) -> String {
    let mut text = String::new();
    let mut place = String::from("0");
    for field in fields {
        let kind = field.specifier();
        if !field.skipped {
            text += &format!(
                "pub fn {}(&self) -> {kind}::InOut {{
                     {kind}::from_bits((self.bytes[0] >> ({place})) & ((1 << {kind}::BITS) - 1))
                 }}",
                field.name
            );
        }
        place += &format!(" + {kind}::BITS");
    }
    text
}

/// Assertions: each field is as wide as its `#[bits = N]` says, and all fields together fill the byte.
fn widths(fields: &[Field]) -> String {
    let mut text = String::new();
    for field in fields {
        if let Some(bits) = &field.bits {
            text += &format!("const _: () = assert!({}::BITS == {bits});", field.specifier());
        }
    }
    let all: Vec<String> = fields.iter().map(|field| format!("{}::BITS", field.specifier())).collect();
    text + &format!("const _: () = assert!({} == 8);", all.join(" + "))
}

fn fields(body: &Group) -> Vec<Field> {
    split(body.stream()).iter().map(|tokens| field(tokens)).collect()
}

/// `#[attribute].. [pub] name: Type`
fn field(tokens: &[TokenTree]) -> Field {
    let colon = tokens.iter().position(|t| t.to_string() == ":").expect("a field has a type");
    let attributes: Vec<String> = tokens[..colon].iter().filter_map(attribute).collect();
    let bits = attributes.iter().find_map(|a| a.strip_prefix("bits").map(|v| v.replace(['=', ' '], "")));
    Field {
        name: tokens[colon - 1].to_string(),
        kind: tokens[colon + 1..].iter().map(|t| t.to_string()).collect(),
        skipped: attributes.iter().any(|a| a == "skip"),
        bits,
    }
}

/// The text inside `[..]` of an attribute.
fn attribute(token: &TokenTree) -> Option<String> {
    match token {
        TokenTree::Group(group) if group.delimiter() == Delimiter::Bracket => Some(group.stream().to_string()),
        _ => None,
    }
}

/// A variant's name: what is left of it without attributes.
fn variant(tokens: &[TokenTree]) -> String {
    tokens.iter().find(|t| matches!(t, TokenTree::Ident(_))).expect("a variant has a name").to_string()
}

fn keyword(tokens: &[TokenTree], word: &str) -> usize {
    tokens.iter().position(|t| t.to_string() == word).expect("a struct or an enum")
}

fn body(tokens: &[TokenTree]) -> &Group {
    let group = tokens.iter().rev().find_map(|t| match t {
        TokenTree::Group(group) if group.delimiter() == Delimiter::Brace => Some(group),
        _ => None,
    });
    group.expect("a body in braces")
}

/// The parts between commas, none of them empty.
fn split(stream: TokenStream) -> Vec<Vec<TokenTree>> {
    let tokens: Vec<TokenTree> = stream.into_iter().collect();
    let parts = tokens.split(|t| t.to_string() == ",");
    parts.filter(|part| !part.is_empty()).map(|part| part.to_vec()).collect()
}
