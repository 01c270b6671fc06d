//! The baseline as a program.

fn main() -> std::io::Result<()> {
    bench::job::main(bench::baseline::judge)
}
