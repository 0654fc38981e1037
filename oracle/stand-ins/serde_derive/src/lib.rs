//! Stand-in for `serde_derive`: each derive writes an empty implementation, so the trait's
//! own (refusing) functions serve. The original derives on types without parameters only.

use proc_macro::{TokenStream, TokenTree};

#[proc_macro_derive(Serialize, attributes(serde))]
pub fn serialize(item: TokenStream) -> TokenStream {
    let name = type_name(item);
    written(format!("impl ::serde::Serialize for {name} {{}}"))
}

#[proc_macro_derive(Deserialize, attributes(serde))]
pub fn deserialize(item: TokenStream) -> TokenStream {
    let name = type_name(item);
    written(format!(
        "impl<'de> ::serde::Deserialize<'de> for {name} {{}}"
    ))
}

fn written(code: String) -> TokenStream {
    code.parse().expect("an implementation without a body")
}

/// The word after `struct` or `enum`.
fn type_name(item: TokenStream) -> String {
    let mut trees = item.into_iter();
    while let Some(tree) = trees.next() {
        if let TokenTree::Ident(word) = tree {
            if matches!(word.to_string().as_str(), "struct" | "enum") {
                return trees.next().expect("a name").to_string();
            }
        }
    }
    panic!("derive on neither a struct nor an enum")
}
