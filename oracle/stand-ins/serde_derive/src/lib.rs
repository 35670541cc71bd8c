// SPDX-License-Identifier: MIT OR Apache-2.0
//! Stands in for serde's derive macros. The impls it writes are never run.
//!
//! A derive expands inside the module of its type, so it sees private fields. `Serialize` therefore also writes the accessors of the
//! table below, by which the oracle reads and sets what the sources keep private.

use proc_macro::{TokenStream, TokenTree};

/// One accessor: which derive writes it, on which type, for what, under which name.
struct Accessor {
    derived: &'static str,
    owner: &'static str,
    member: Member,
    name: &'static str,
    ty: &'static str,
}

enum Member {
    /// Writes `name(&self) -> &ty` and `name_mut(&mut self) -> &mut ty`.
    Field(&'static str),
    /// Writes `name(&self) -> ty`, which calls the private method.
    Method(&'static str),
}

const fn field(derived: &'static str, owner: &'static str, field: &'static str, name: &'static str, ty: &'static str) -> Accessor {
    Accessor { derived, owner, member: Member::Field(field), name, ty }
}

const fn method(derived: &'static str, owner: &'static str, method: &'static str, name: &'static str, ty: &'static str) -> Accessor {
    Accessor { derived, owner, member: Member::Method(method), name, ty }
}

/// `Memory` has impls of its own and no derive; `MemoryState`, beside it, has one and writes for it.
const ACCESSORS: [Accessor; 13] = [
    field("Audio", "Audio", "phase_ext", "raw_phase_ext", "[u32; 8]"),
    field("Page", "Page", "0", "raw", "u32"),
    field("MemoryState", "Memory", "data", "raw_data", "Box<[u8]>"),
    field("MemoryState", "Memory", "prg_rom", "raw_prg_rom", "Range<usize>"),
    field("MemoryState", "Memory", "prg_ram", "raw_prg_ram", "Range<usize>"),
    field("MemoryState", "Memory", "battery_ext", "raw_battery_ext", "Range<usize>"),
    field("MemoryState", "Memory", "battery_ext_len", "raw_battery_ext_len", "usize"),
    field("MemoryState", "Memory", "chr", "raw_chr", "Range<usize>"),
    field("MemoryState", "Memory", "chr_writable", "raw_chr_writable", "bool"),
    field("MemoryState", "Memory", "ciram", "raw_ciram", "Range<usize>"),
    field("MemoryState", "Memory", "prg_pages", "raw_prg_pages", "[Page; PRG_PAGES]"),
    field("MemoryState", "Memory", "chr_pages", "raw_chr_pages", "[Page; CHR_PAGES]"),
    method("MemoryState", "Memory", "sram_range", "raw_sram_range", "Range<usize>"),
];

impl Accessor {
    fn written(&self) -> String {
        let Self { owner, name, ty, .. } = self;
        match self.member {
            Member::Field(field) => format!(
                "impl {owner} {{
                    pub fn {name}(&self) -> &{ty} {{ &self.{field} }}
                    pub fn {name}_mut(&mut self) -> &mut {ty} {{ &mut self.{field} }}
                }}"
            ),
            Member::Method(method) => format!("impl {owner} {{ pub fn {name}(&self) -> {ty} {{ self.{method}() }} }}"),
        }
    }
}

/// A type's name and what stands between its angle brackets. Parameters with bounds don't occur in the sources.
fn head(item: TokenStream) -> (String, String) {
    let mut tokens = item.into_iter().skip_while(|token| !matches!(token.to_string().as_str(), "struct" | "enum")).skip(1);
    let name = tokens.next().map(|token| token.to_string()).unwrap_or_default();
    let bracketed = |token: &TokenTree| token.to_string() != ">";
    let params = match tokens.next() {
        Some(token) if token.to_string() == "<" => tokens.take_while(bracketed).collect::<TokenStream>().to_string(),
        _ => String::new(),
    };
    (name, params)
}

fn parsed(code: String) -> TokenStream {
    code.parse().expect("the derive writes valid Rust")
}

#[proc_macro_derive(Serialize, attributes(serde))]
pub fn serialize(item: TokenStream) -> TokenStream {
    let (name, params) = head(item);
    let mut code = format!(
        "impl<{params}> ::serde::Serialize for {name}<{params}> {{
            fn serialize<Out: ::serde::Serializer>(&self, _: Out) -> Result<Out::Ok, Out::Error> {{
                unreachable!(\"save states are left out\")
            }}
        }}"
    );
    for accessor in ACCESSORS.iter().filter(|accessor| accessor.derived == name) {
        code += &accessor.written();
    }
    parsed(code)
}

#[proc_macro_derive(Deserialize, attributes(serde))]
pub fn deserialize(item: TokenStream) -> TokenStream {
    let (name, params) = head(item);
    parsed(format!(
        "impl<'de, {params}> ::serde::Deserialize<'de> for {name}<{params}> {{
            fn deserialize<In: ::serde::Deserializer<'de>>(_: In) -> Result<Self, In::Error> {{
                unreachable!(\"save states are left out\")
            }}
        }}"
    ))
}
