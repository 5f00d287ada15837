//! The two derives of the stand-in for num_enum, over enums whose cases hold nothing and which name their representation.
extern crate proc_macro;
use proc_macro::{Delimiter, TokenStream, TokenTree};

struct Shape {
    name: String,
    primitive: String,
    cases: Vec<String>,
}

fn shape(input: TokenStream) -> Shape {
    let tokens: Vec<TokenTree> = input.into_iter().collect();
    let mut found = Shape { name: String::new(), primitive: String::new(), cases: Vec::new() };
    for (i, token) in tokens.iter().enumerate() {
        match token {
            TokenTree::Ident(word) if word.to_string() == "enum" => found.name = tokens[i + 1].to_string(),
            TokenTree::Group(group) if group.delimiter() == Delimiter::Bracket => {
                let text = group.to_string().replace(' ', "");
                if let Some(rest) = text.strip_prefix("[repr(") {
                    found.primitive = rest.trim_end_matches(")]").to_string();
                }
            }
            TokenTree::Group(group) if group.delimiter() == Delimiter::Brace => found.cases = cases(group.stream()),
            _ => {}
        }
    }
    found
}

fn cases(body: TokenStream) -> Vec<String> {
    let mut names = Vec::new();
    let mut at_start = true;
    for token in body {
        match token {
            TokenTree::Ident(word) if at_start => {
                names.push(word.to_string());
                at_start = false;
            }
            TokenTree::Punct(mark) if mark.as_char() == ',' => at_start = true,
            _ => {}
        }
    }
    names
}

#[proc_macro_derive(IntoPrimitive)]
pub fn into_primitive(input: TokenStream) -> TokenStream {
    let Shape { name, primitive, .. } = shape(input);
    format!("impl From<{name}> for {primitive} {{ fn from(case: {name}) -> Self {{ case as {primitive} }} }}").parse().unwrap()
}

#[proc_macro_derive(TryFromPrimitive, attributes(num_enum))]
pub fn try_from_primitive(input: TokenStream) -> TokenStream {
    let Shape { name, primitive, cases } = shape(input);
    let tests: String = cases.iter().map(|case| format!("if number == {name}::{case} as {primitive} {{ return Ok({name}::{case}); }}\n")).collect();
    format!(
        "impl ::num_enum::TryFromPrimitive for {name} {{
            type Primitive = {primitive};
            fn try_from_primitive(number: {primitive}) -> Result<Self, ::num_enum::TryFromPrimitiveError<Self>> {{
                {tests}
                Err(::num_enum::TryFromPrimitiveError(::core::marker::PhantomData))
            }}
        }}
        impl ::core::convert::TryFrom<{primitive}> for {name} {{
            type Error = ::num_enum::TryFromPrimitiveError<Self>;
            fn try_from(number: {primitive}) -> Result<Self, Self::Error> {{
                ::num_enum::TryFromPrimitive::try_from_primitive(number)
            }}
        }}"
    )
    .parse()
    .unwrap()
}
