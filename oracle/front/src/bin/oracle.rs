//! The oracle of document 01 behind the protocol.

fn main() -> std::io::Result<()> {
    front::answer::run(front::whole)
}
