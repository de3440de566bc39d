//! A rota as text that a volunteer can read and write. Everything that a rota can say is said, and
//! nothing else: its format, and the order and the repeats of its rows too.

mod parse;
mod print;

pub use parse::{Packed, Unpacked, pack};
pub use print::print;
