//! Ours, in place of the crate `bitfield_struct`: the attribute `#[bitfield(..)]`, as far as the
//! upstream files use it.
//!
//! `#[bitfield(u32, order = Msb, ..)] struct S { .. }` becomes a tuple struct over the integer,
//! `struct S(u32)`, whose fields are cut from it, the first field from the highest bits:
//! - `#[bits(N)]` is a field's width; without it the width is its type's (`u8` to `u64` and `i32`;
//!   `bool` 1).
//! - `name()` reads a field. Where its access is not `RO`, `with_name(v)` and `set_name(v)` write it.
//! - A field of another type than an integer or `bool` goes through `from_bits` and `into_bits`.
//! - A field `__` is padding: it has no functions.
//! - `new()` has each field at its `default = ..`, or at 0; `new = false` leaves it out, and
//!   `default = false` leaves out the trait `Default`.
//!
//! What it does not know it refuses. `Debug` prints the integer, not the fields.

use proc_macro::{Delimiter, Group, TokenStream, TokenTree};

type Tokens = std::iter::Peekable<proc_macro::token_stream::IntoIter>;

/// One field of the struct.
struct Field {
    /// Its attributes other than `bits`: the comments.
    attributes: String,
    visibility: String,
    name: String,
    kind: String,
    width: u32,
    read_only: bool,
    default: Option<String>,
    /// The place of its lowest bit.
    low: u32,
}

/// What the attribute `#[bitfield(..)]` asks for.
struct Wish {
    integer: String,
    hash: bool,
    new: bool,
    default: bool,
}

/// Splits `a, b = c, ..` at its commas; each part as its key and, after `=`, its value.
fn parts(list: TokenStream) -> Vec<(String, Option<String>)> {
    let mut parts = Vec::new();
    let mut tokens = list.into_iter().peekable();
    while tokens.peek().is_some() {
        let key = tokens.next().expect("it was seen").to_string();
        let mut value = None;
        for token in tokens.by_ref() {
            match token.to_string().as_str() {
                "," => break,
                "=" => value = Some(String::new()),
                word => *value.as_mut().expect("a value follows '='") += word,
            }
        }
        parts.push((key, value));
    }
    parts
}

fn wish(list: TokenStream) -> Wish {
    let mut parts = parts(list).into_iter();
    let (integer, _) = parts.next().expect("the integer type comes first");
    let mut wish = Wish {
        integer,
        hash: false,
        new: true,
        default: true,
    };
    for (key, value) in parts {
        let value = value.unwrap_or_default();
        match (key.as_str(), value.as_str()) {
            ("order", "Msb") | ("conversion", "false") => {}
            ("hash", _) => wish.hash = value == "true",
            ("new", _) => wish.new = value == "true",
            ("default", _) => wish.default = value == "true",
            _ => panic!("bitfield: {key} = {value} is not known here"),
        }
    }
    wish
}

/// The width of a plain type, or none for a type that goes through `from_bits`.
fn plain_width(kind: &str) -> Option<u32> {
    match kind {
        "bool" => Some(1),
        "u8" => Some(8),
        "u16" => Some(16),
        "u32" | "i32" => Some(32),
        "u64" => Some(64),
        _ => None,
    }
}

/// The smallest integer type that holds `width` bits.
fn holder(width: u32) -> &'static str {
    match width {
        0..=8 => "u8",
        9..=16 => "u16",
        17..=32 => "u32",
        _ => "u64",
    }
}

/// Takes the next token if it is the word `word`.
fn take_word(tokens: &mut Tokens, word: &str) -> bool {
    tokens.next_if(|token| token.to_string() == word).is_some()
}

/// The content of the next `#[..]`, if there is one.
fn take_attribute(tokens: &mut Tokens) -> Option<Group> {
    if !take_word(tokens, "#") {
        return None;
    }
    match tokens.next() {
        Some(TokenTree::Group(group)) => Some(group),
        _ => panic!("bitfield: '[' follows '#'"),
    }
}

/// `pub`, `pub(..)` or nothing.
fn take_visibility(tokens: &mut Tokens) -> String {
    let mut visibility = String::new();
    if take_word(tokens, "pub") {
        visibility += "pub";
        let inside = |token: &TokenTree| matches!(token, TokenTree::Group(g) if g.delimiter() == Delimiter::Parenthesis);
        if let Some(group) = tokens.next_if(inside) {
            visibility += &group.to_string();
        }
    }
    visibility
}

/// Reads `bits(N, access = RO, default = ..)` into `field`, or answers false.
fn take_bits(attribute: &Group, field: &mut Field) -> bool {
    let mut tokens = attribute.stream().into_iter().peekable();
    if !take_word(&mut tokens, "bits") {
        return false;
    }
    let Some(TokenTree::Group(list)) = tokens.next() else {
        panic!("bitfield: '(' follows bits");
    };
    for (key, value) in parts(list.stream()) {
        match (key.as_str(), value) {
            ("access", Some(value)) if value == "RO" => field.read_only = true,
            ("default", Some(value)) => field.default = Some(value),
            (width, None) => field.width = width.parse().expect("a width is a number"),
            (key, _) => panic!("bitfield: {key} is not known here"),
        }
    }
    true
}

fn take_field(tokens: &mut Tokens) -> Field {
    let mut field = Field {
        attributes: String::new(),
        visibility: String::new(),
        name: String::new(),
        kind: String::new(),
        width: 0,
        read_only: false,
        default: None,
        low: 0,
    };
    while let Some(attribute) = take_attribute(tokens) {
        if !take_bits(&attribute, &mut field) {
            field.attributes += &format!("#{attribute}\n");
        }
    }
    field.visibility = take_visibility(tokens);
    field.name = tokens.next().expect("a field has a name").to_string();
    assert!(take_word(tokens, ":"), "bitfield: ':' follows a name");
    for token in tokens.by_ref() {
        match token.to_string().as_str() {
            "," => break,
            word => field.kind += word,
        }
    }
    if field.width == 0 {
        field.width = plain_width(&field.kind).expect("a field of this type says its width");
    }
    let signed = field.kind.starts_with('i');
    assert!(!signed || field.width == 32, "bitfield: i32 is whole");
    field
}

/// The fields, each with the place of its lowest bit; together they fill the integer.
fn fields(body: TokenStream, size: u32) -> Vec<Field> {
    let mut tokens = body.into_iter().peekable();
    let mut fields = Vec::new();
    let mut low = size;
    while tokens.peek().is_some() {
        let mut field = take_field(&mut tokens);
        low = low.checked_sub(field.width).expect("the fields fit");
        field.low = low;
        fields.push(field);
    }
    assert_eq!(low, 0, "bitfield: the fields fill the integer");
    fields
}

impl Field {
    /// The field's bits at the low end: 1 for each.
    fn mask(&self) -> String {
        format!("{:#x}", u64::MAX >> (64 - self.width))
    }

    /// The expression that turns `value` into bits of the integer.
    fn placed(&self, integer: &str, value: &str) -> String {
        let bits = match plain_width(&self.kind) {
            Some(_) => value.to_string(),
            None => format!("<{}>::into_bits({value})", self.kind),
        };
        format!(
            "((({bits}) as {integer} & {}) << {})",
            self.mask(),
            self.low
        )
    }

    fn getter(&self) -> String {
        let bits = format!("((self.0 >> {}) & {})", self.low, self.mask());
        let value = match self.kind.as_str() {
            "bool" => format!("{bits} != 0"),
            kind if plain_width(kind).is_some() => format!("{bits} as {kind}"),
            kind => format!("<{kind}>::from_bits({bits} as {})", holder(self.width)),
        };
        format!(
            "{}{} const fn {}(&self) -> {} {{ {value} }}\n",
            self.attributes, self.visibility, self.name, self.kind
        )
    }

    fn setters(&self, integer: &str) -> String {
        let placed = self.placed(integer, "value");
        let others = format!("(self.0 & !({} << {}))", self.mask(), self.low);
        let (comments, see, name, kind) =
            (&self.attributes, &self.visibility, &self.name, &self.kind);
        format!(
            "{comments}{see} const fn with_{name}(self, value: {kind}) -> Self {{
                Self({others} | {placed})
            }}
            {comments}{see} const fn set_{name}(&mut self, value: {kind}) {{
                self.0 = {others} | {placed};
            }}\n"
        )
    }
}

/// The function `new`: each field with a default at its default.
fn new_function(fields: &[Field], integer: &str) -> String {
    let mut value = String::from("0");
    for field in fields {
        if let Some(default) = &field.default {
            value += &format!(" | {}", field.placed(integer, default));
        }
    }
    format!("pub const fn new() -> Self {{ Self({value}) }}\n")
}

#[proc_macro_attribute]
pub fn bitfield(list: TokenStream, item: TokenStream) -> TokenStream {
    let wish = wish(list);
    let mut tokens = item.into_iter().peekable();
    let mut code = String::from("#[derive(Clone, Copy, Debug)]\n");
    if wish.hash {
        code += "#[derive(Hash)]\n";
    }
    while let Some(attribute) = take_attribute(&mut tokens) {
        code += &format!("#{attribute}\n");
    }
    let visibility = take_visibility(&mut tokens);
    assert!(take_word(&mut tokens, "struct"), "bitfield: a struct");
    let name = tokens.next().expect("a struct has a name").to_string();
    let Some(TokenTree::Group(body)) = tokens.next() else {
        panic!("bitfield: a struct with named fields");
    };
    let integer = &wish.integer;
    let size = plain_width(integer).expect("an integer type");
    let fields = fields(body.stream(), size);

    code += &format!("{visibility} struct {name}({integer});\nimpl {name} {{\n");
    if wish.new {
        code += &new_function(&fields, integer);
    }
    for field in fields.iter().filter(|field| field.name != "__") {
        code += &field.getter();
        if !field.read_only {
            code += &field.setters(integer);
        }
    }
    code += "}\n";
    if wish.default {
        code += &format!("impl Default for {name} {{ fn default() -> Self {{ Self::new() }} }}\n");
    }
    code.parse().expect("the code above is Rust")
}
