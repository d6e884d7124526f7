//! Stand-in for the derive `ToErrorMessage`, for structs like `struct X(String);`.

use proc_macro::{TokenStream, TokenTree};

/// Derives `From<X> for DsntkError`: the message is the only field.
#[proc_macro_derive(ToErrorMessage)]
pub fn to_error_message(input: TokenStream) -> TokenStream {
    let name = struct_name(input);
    format!(
        "impl ::core::convert::From<{name}> for ::dsntk_common::DsntkError {{
            fn from(error: {name}) -> Self {{ Self::new(error.0) }}
        }}"
    )
    .parse()
    .expect("the text above is Rust")
}

/// The name after the word `struct`.
fn struct_name(input: TokenStream) -> String {
    let mut tokens = input.into_iter().skip_while(
        |token| !matches!(token, TokenTree::Ident(word) if word.to_string() == "struct"),
    );
    tokens.next().expect("only structs have this derive");
    tokens.next().expect("a struct has a name").to_string()
}
