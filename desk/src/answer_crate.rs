//! `desk/answer --crate`: the crate's unchanged modules answer the command language.
#![allow(dead_code, unused_macros)]

extern crate byteorder;
extern crate encoding_rs;
extern crate uuid;

mod internal {
    #[macro_use]
    mod macros;
    pub mod category;
    pub mod codepage;
    pub mod column;
    pub mod language;
    pub mod streamname;
    pub mod stringpool;
    pub mod table;
    pub mod value;
}
mod crate_side;
mod language;
mod requests;

fn main() -> std::io::Result<()> {
    // The domain is the crate built without debug assertions.
    assert!(!cfg!(debug_assertions));
    std::panic::set_hook(Box::new(|_| {}));
    let raw = std::env::args().any(|word| word == "--raw");
    let mut side = crate_side::CrateSide::new(raw);
    language::serve(|command| side.answer(command))
}
