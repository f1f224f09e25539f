//! What the Rust says to the texts on the command line.

fn main() {
    std::panic::set_hook(Box::new(|_| ()));
    for text in std::env::args().skip(1) {
        println!("{text}");
        println!("  2.5.2: {:?}", oracle::real::read(&text));
        println!("  names: {}", oracle::real::names_pass(&text));
        println!("  given, tagged: {:?}", oracle::read(&text, true));
        println!("  given, plain: {:?}", oracle::read(&text, false));
    }
}
