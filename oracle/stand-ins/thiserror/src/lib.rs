//! Stand-in for `thiserror`: the derive `Error`, which shows an error by its variant's name.
//! The original's sentences are not compared, so they are not kept.

use proc_macro::{TokenStream, TokenTree};

#[proc_macro_derive(Error, attributes(error))]
pub fn error(item: TokenStream) -> TokenStream {
    let name = enum_name(item);
    format!(
        "impl ::std::error::Error for {name} {{}}
         impl ::std::fmt::Display for {name} {{
             fn fmt(&self, f: &mut ::std::fmt::Formatter<'_>) -> ::std::fmt::Result {{
                 ::std::fmt::Debug::fmt(self, f)
             }}
         }}"
    )
    .parse()
    .expect("two implementations")
}

/// The word after `enum`.
fn enum_name(item: TokenStream) -> String {
    let mut trees = item.into_iter();
    while let Some(tree) = trees.next() {
        if matches!(&tree, TokenTree::Ident(word) if word.to_string() == "enum") {
            return trees.next().expect("a name").to_string();
        }
    }
    panic!("derive(Error) on something that is no enum")
}
