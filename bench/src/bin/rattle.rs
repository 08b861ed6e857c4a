//! The rounds on the Rattle: the function that crates/rounds exports.

#[link(name = "rounds", kind = "static")]
extern "C" {
    fn rounds_run(due: u64, turns: u64) -> u64;
}

fn main() {
    bench::tell(|due, turns| unsafe { rounds_run(due, turns) });
}
