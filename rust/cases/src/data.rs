//! The small rota, its table and its listing, as their files hold them.

fn file(name: &str) -> Vec<u8> {
    let path = concat!(env!("CARGO_MANIFEST_DIR"), "/../../data/").to_string() + name;
    std::fs::read(&path).unwrap_or_else(|error| panic!("{path}: {error}"))
}

pub fn small_rota() -> Vec<u8> {
    file("small.rota")
}

pub fn small_table() -> Vec<u8> {
    file("small.table")
}

pub fn small_listing() -> Vec<u8> {
    file("small.listing")
}
