//! Links Debian's SQLite.

fn main() {
    println!("cargo:rustc-link-lib=sqlite3");
}
