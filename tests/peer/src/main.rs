//! `peer compare` compares the library with the peer; `peer bench` times both on the same inputs.

mod bench;
mod callgrind;
mod compare;
mod curves;
mod fence;
mod generate;
mod library;

fn main() {
    match std::env::args().nth(1).as_deref() {
        Some("compare") => compare::run(),
        Some("bench") => bench::run(),
        _ => {
            eprintln!("usage: peer compare | peer bench");
            std::process::exit(2);
        }
    }
}
