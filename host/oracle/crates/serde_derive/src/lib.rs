//! Stand-in for `#[derive(Serialize)]`: an impl that type-checks and is never run. The originals
//! derive it for types without generics only.

use proc_macro::{TokenStream, TokenTree};

#[proc_macro_derive(Serialize, attributes(serde))]
pub fn serialize(input: TokenStream) -> TokenStream {
    let mut tokens = input.into_iter();
    let is_keyword = |token: &TokenTree| matches!(token.to_string().as_str(), "struct" | "enum");
    tokens.by_ref().find(is_keyword).expect("a struct or an enum");
    let name = tokens.next().expect("its name");
    let text = format!(
        "impl ::serde::Serialize for {name} {{
            fn serialize<S: ::serde::Serializer>(&self, _: S) -> ::core::result::Result<S::Ok, S::Error> {{
                ::core::unimplemented!()
            }}
        }}"
    );
    text.parse().expect("an impl")
}
