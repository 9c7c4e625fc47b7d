//! Prints the constant tables from their fields' polynomials: `target/compare/release/tables >crates/tables/stdout` makes
//! what the program `tables` is compared with.

#![forbid(unsafe_code)]

fn main() {
    print!("{}", compare::tables::text());
}
