//! Our stand-in for upstream's derive macros `Display` and `Error`, written against `proc_macro` alone.
//!
//! It covers the enums that upstream's files derive them for: unit variants and tuple variants, with
//! `#[display("..")]` (fields are `f0`, `f1` and so on), `#[transparent]` and `#[source]`. Anything else is a
//! compile error. Only the texts of errors and their sources depend on it, and the comparison uses neither.

use proc_macro::{Delimiter, Group, TokenStream, TokenTree};

/// Writes `Display`: each variant by its `#[display("..")]`, a `#[transparent]` one as its only field.
#[proc_macro_derive(Display, attributes(display, transparent))]
pub fn derive_display(input: TokenStream) -> TokenStream {
    emit(read_enum(input).and_then(|it| display_impl(&it)))
}

/// Writes `Error`: the `#[source]` field is the source. A `#[transparent]` variant has its field's source, and
/// `From` its field's type.
#[proc_macro_derive(Error, attributes(display, transparent, source))]
pub fn derive_error(input: TokenStream) -> TokenStream {
    emit(read_enum(input).map(|it| error_impl(&it)))
}

struct Enum {
    name: String,
    variants: Vec<Variant>,
}

struct Variant {
    name: String,
    /// The literal of `#[display(..)]`, as written.
    display: Option<String>,
    transparent: bool,
    fields: Vec<Field>,
}

struct Field {
    ty: String,
    source: bool,
}

struct Attribute {
    name: String,
    argument: Option<String>,
}

fn emit(code: Result<String, String>) -> TokenStream {
    let code = code.unwrap_or_else(|why| format!("::core::compile_error!({why:?});"));
    code.parse().expect("the macro writes valid Rust")
}

fn display_impl(it: &Enum) -> Result<String, String> {
    let mut arms = String::new();
    for variant in &it.variants {
        let pattern = pattern(variant);
        let body = match (&variant.display, variant.transparent) {
            (Some(text), false) => format!("::core::write!(formatter, {text})"),
            (None, true) => "::core::fmt::Display::fmt(f0, formatter)".to_owned(),
            _ => {
                return Err(format!("`{}` needs either #[display(..)] or #[transparent]", variant.name));
            }
        };
        arms += &format!("{pattern} => {body},");
    }
    Ok(format!(
        "impl ::core::fmt::Display for {name} {{
            #[allow(unused_variables)]
            fn fmt(&self, formatter: &mut ::core::fmt::Formatter<'_>) -> ::core::fmt::Result {{
                match self {{ {arms} }}
            }}
        }}",
        name = it.name
    ))
}

fn error_impl(it: &Enum) -> String {
    let name = &it.name;
    let mut arms = String::new();
    let mut conversions = String::new();
    for variant in &it.variants {
        let pattern = pattern(variant);
        let source = if variant.transparent {
            let field_type = &variant.fields[0].ty;
            conversions += &format!(
                "impl ::core::convert::From<{field_type}> for {name} {{
                    fn from(value: {field_type}) -> Self {{ Self::{}(value) }}
                }}",
                variant.name
            );
            "::std::error::Error::source(f0)".to_owned()
        } else {
            match variant.fields.iter().position(|field| field.source) {
                Some(at) => format!("::core::option::Option::Some(f{at})"),
                None => "::core::option::Option::None".to_owned(),
            }
        };
        arms += &format!("{pattern} => {source},");
    }
    format!(
        "impl ::std::error::Error for {name} {{
            #[allow(unused_variables)]
            fn source(&self) -> ::core::option::Option<&(dyn ::std::error::Error + 'static)> {{
                match self {{ {arms} }}
            }}
        }}
        {conversions}"
    )
}

fn pattern(variant: &Variant) -> String {
    if variant.fields.is_empty() {
        return format!("Self::{}", variant.name);
    }
    let names: Vec<String> = (0..variant.fields.len()).map(|at| format!("f{at}")).collect();
    format!("Self::{}({})", variant.name, names.join(", "))
}

fn read_enum(input: TokenStream) -> Result<Enum, String> {
    let mut tokens = input.into_iter();
    for token in tokens.by_ref() {
        if matches!(&token, TokenTree::Ident(word) if word.to_string() == "enum") {
            let (Some(TokenTree::Ident(name)), Some(TokenTree::Group(body))) = (tokens.next(), tokens.next())
            else {
                return Err("expected an enum without parameters".to_owned());
            };
            let variants = parts(&body).into_iter().map(read_variant).collect::<Result<_, _>>()?;
            return Ok(Enum { name: name.to_string(), variants });
        }
    }
    Err("only enums are supported".to_owned())
}

fn read_variant(tokens: Vec<TokenTree>) -> Result<Variant, String> {
    let (attributes, rest) = split_attributes(tokens);
    let mut variant = Variant { name: String::new(), display: None, transparent: false, fields: Vec::new() };
    match rest.as_slice() {
        [TokenTree::Ident(name)] => variant.name = name.to_string(),
        [TokenTree::Ident(name), TokenTree::Group(body)] if body.delimiter() == Delimiter::Parenthesis => {
            variant.name = name.to_string();
            variant.fields = parts(body).into_iter().map(read_field).collect();
        }
        _ => return Err("only unit and tuple variants are supported".to_owned()),
    }
    for attribute in attributes {
        match attribute.name.as_str() {
            "display" => variant.display = attribute.argument,
            "transparent" => variant.transparent = true,
            _ => {}
        }
    }
    if variant.transparent && variant.fields.len() != 1 {
        return Err(format!("`{}` is transparent and needs exactly one field", variant.name));
    }
    Ok(variant)
}

fn read_field(tokens: Vec<TokenTree>) -> Field {
    let (attributes, rest) = split_attributes(tokens);
    let ty = TokenStream::from_iter(rest).to_string();
    Field { ty, source: attributes.iter().any(|attribute| attribute.name == "source") }
}

/// The parts of a group between its commas, those inside `<` and `>` aside.
fn parts(group: &Group) -> Vec<Vec<TokenTree>> {
    let mut all = vec![Vec::new()];
    let mut depth = 0;
    for token in group.stream() {
        if let TokenTree::Punct(punct) = &token {
            match punct.as_char() {
                '<' => depth += 1,
                '>' => depth -= 1,
                ',' if depth == 0 => {
                    all.push(Vec::new());
                    continue;
                }
                _ => {}
            }
        }
        all.last_mut().expect("never empty").push(token);
    }
    all.retain(|part| !part.is_empty());
    all
}

/// Takes the attributes off the front of an item.
fn split_attributes(tokens: Vec<TokenTree>) -> (Vec<Attribute>, Vec<TokenTree>) {
    let mut attributes = Vec::new();
    let mut at = 0;
    while let (Some(TokenTree::Punct(hash)), Some(TokenTree::Group(body))) =
        (tokens.get(at), tokens.get(at + 1))
    {
        if hash.as_char() != '#' {
            break;
        }
        let inner: Vec<TokenTree> = body.stream().into_iter().collect();
        let argument = match inner.get(1) {
            Some(TokenTree::Group(argument)) => Some(argument.stream().to_string()),
            _ => None,
        };
        let name = inner.first().map(TokenTree::to_string).unwrap_or_default();
        attributes.push(Attribute { name, argument });
        at += 2;
    }
    (attributes, tokens[at..].to_vec())
}
