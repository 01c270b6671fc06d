//! The tuned judge as a program.

fn main() -> std::io::Result<()> {
    bench::job::main(bench::tuned::judge)
}
