//! The drive program on standard input and output.

fn main() -> std::io::Result<()> {
    second::drive::drive(std::io::stdin().lock(), std::io::stdout().lock())
}
