//! Stands in for the crate thiserror. The derive makes Error and a Display that prints as Debug does: no text of an error is
//! compared, only the text that stands inside it.
extern crate proc_macro;
use proc_macro::{TokenStream, TokenTree};

#[proc_macro_derive(Error, attributes(error))]
pub fn derive_error(item: TokenStream) -> TokenStream {
    let mut words = item.into_iter().skip_while(|t| t.to_string() != "enum").skip(1);
    let name = match words.next() {
        Some(TokenTree::Ident(name)) => name.to_string(),
        _ => panic!("only an enum is expected"),
    };
    format!(
        "impl std::error::Error for {name} {{}}
         impl std::fmt::Display for {name} {{
             fn fmt(&self, f: &mut std::fmt::Formatter<'_>) -> std::fmt::Result {{ write!(f, \"{{:?}}\", self) }}
         }}"
    )
    .parse()
    .unwrap()
}
