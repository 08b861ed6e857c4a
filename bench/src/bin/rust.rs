//! The rounds on the Rust.

fn main() {
    bench::tell(bench::rounds::run);
}
