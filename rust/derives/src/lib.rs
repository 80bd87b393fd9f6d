//! Derives that stand in for those of thiserror, num_enum and unplug_proc.
//!
//! They read just as much of an item as the original sources need: its name, the names of its
//! fields or variants, and the error type that `#[serialize(error = ..)]` asks for.

use proc_macro::{Delimiter, TokenStream, TokenTree};

/// What the derives need to know of an item.
struct Item {
    name: String,
    members: Vec<String>,
    error: String,
}

/// Reads the item that a derive was put on.
fn read(input: TokenStream) -> Item {
    let mut item = Item {
        name: String::new(),
        members: Vec::new(),
        error: "crate::event::serialize::Error".to_string(),
    };
    let mut tokens = input.into_iter();
    while let Some(token) = tokens.next() {
        match token {
            TokenTree::Ident(word) if matches!(word.to_string().as_str(), "enum" | "struct") => {
                item.name = tokens.next().map(|t| t.to_string()).unwrap_or_default();
            }
            TokenTree::Group(group) if group.delimiter() == Delimiter::Bracket => {
                if let Some(error) = error_type(group.stream()) {
                    item.error = error;
                }
            }
            TokenTree::Group(group) if group.delimiter() == Delimiter::Brace => {
                item.members = members(group.stream());
            }
            _ => (),
        }
    }
    item
}

/// The type named by an attribute `serialize(error = ..)`, if this is one.
fn error_type(attribute: TokenStream) -> Option<String> {
    let mut tokens = attribute.into_iter();
    if tokens.next()?.to_string() != "serialize" {
        return None;
    }
    let TokenTree::Group(group) = tokens.next()? else {
        return None;
    };
    Some(
        group
            .stream()
            .into_iter()
            .skip(2)
            .collect::<TokenStream>()
            .to_string(),
    )
}

/// The names of the fields or variants in an item's braces.
fn members(body: TokenStream) -> Vec<String> {
    let mut names = Vec::new();
    let mut expected = true;
    let mut tokens = body.into_iter();
    while let Some(token) = tokens.next() {
        match token {
            // An attribute is `#` and a group, the group is passed over with it.
            TokenTree::Punct(p) if p.as_char() == '#' => {
                tokens.next();
            }
            TokenTree::Punct(p) if p.as_char() == ',' => expected = true,
            TokenTree::Ident(word) if expected && word.to_string() != "pub" => {
                names.push(word.to_string());
                expected = false;
            }
            _ => (),
        }
    }
    names
}

fn tokens(text: String) -> TokenStream {
    text.parse().expect("the derive writes Rust")
}

/// Stands in for `thiserror::Error`: the texts are not needed, so the debug form is shown.
#[proc_macro_derive(Error, attributes(error, source, from))]
pub fn error(input: TokenStream) -> TokenStream {
    let name = read(input).name;
    tokens(format!(
        "impl ::std::fmt::Display for {name} {{
            fn fmt(&self, f: &mut ::std::fmt::Formatter<'_>) -> ::std::fmt::Result {{
                ::std::fmt::Debug::fmt(self, f)
            }}
        }}
        impl ::std::error::Error for {name} {{}}"
    ))
}

/// Stands in for `num_enum::IntoPrimitive` on enums over `u8`.
#[proc_macro_derive(IntoPrimitive)]
pub fn into_primitive(input: TokenStream) -> TokenStream {
    let name = read(input).name;
    tokens(format!(
        "impl ::std::convert::From<{name}> for u8 {{
            fn from(value: {name}) -> u8 {{ value as u8 }}
        }}"
    ))
}

/// Stands in for `num_enum::TryFromPrimitive` on enums over `u8`.
#[proc_macro_derive(TryFromPrimitive)]
pub fn try_from_primitive(input: TokenStream) -> TokenStream {
    let Item { name, members, .. } = read(input);
    let tests: String = members
        .iter()
        .map(|m| format!("if value == {name}::{m} as u8 {{ return Ok({name}::{m}); }}"))
        .collect();
    tokens(format!(
        "impl ::std::convert::TryFrom<u8> for {name} {{
            type Error = u8;
            fn try_from(value: u8) -> ::std::result::Result<Self, u8> {{ {tests} Err(value) }}
        }}"
    ))
}

/// Stands in for `unplug_proc::SerializeEvent`: the fields in their order.
#[proc_macro_derive(SerializeEvent, attributes(serialize))]
pub fn serialize_event(input: TokenStream) -> TokenStream {
    let Item {
        name,
        members,
        error,
    } = read(input);
    let steps: String = members
        .iter()
        .map(|m| format!("crate::event::serialize::SerializeEvent::serialize(&self.{m}, ser)?;"))
        .collect();
    tokens(format!(
        "impl crate::event::serialize::SerializeEvent for {name} {{
            type Error = {error};
            fn serialize(&self, ser: &mut dyn crate::event::serialize::EventSerializer)
                -> ::std::result::Result<(), Self::Error> {{ {steps} Ok(()) }}
        }}"
    ))
}

/// Stands in for `unplug_proc::DeserializeEvent`: the fields in their order.
#[proc_macro_derive(DeserializeEvent, attributes(serialize))]
pub fn deserialize_event(input: TokenStream) -> TokenStream {
    let Item {
        name,
        members,
        error,
    } = read(input);
    let fields: String = members
        .iter()
        .map(|m| format!("{m}: crate::event::serialize::DeserializeEvent::deserialize(de)?,"))
        .collect();
    tokens(format!(
        "impl crate::event::serialize::DeserializeEvent for {name} {{
            type Error = {error};
            fn deserialize(de: &mut dyn crate::event::serialize::EventDeserializer)
                -> ::std::result::Result<Self, Self::Error> {{ Ok(Self {{ {fields} }}) }}
        }}"
    ))
}
