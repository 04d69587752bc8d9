//! events SET < TEXT: prints the events of the blocks of a text, as the program `events` does.
use hoxalgurre::{parse_bytes, Constructs, Kind, Options};
use std::io::Read;

fn main() -> Result<(), Box<dyn std::error::Error>> {
    let options = match std::env::args().nth(1).as_deref() {
        Some("commonmark") => Options::COMMONMARK,
        Some("all") => Options::ALL,
        Some("alerts") => Options::ALERTS,
        _ => Options::GFM,
    };
    let (mut text, mut depth) = (Vec::new(), 0);
    std::io::stdin().read_to_end(&mut text)?;
    for event in parse_bytes(&text, options.without(Constructs::INLINES))?.events() {
        depth -= usize::from(event.kind == Kind::Exit);
        let (sign, point) = (if event.kind == Kind::Enter { '+' } else { '-' }, event.point);
        let indent = 2 * depth;
        println!("{:indent$}{sign} {:?} {} {} {} {}", "", event.name, point.line, point.column, point.index, point.vs);
        depth += usize::from(event.kind == Kind::Enter);
    }
    Ok(())
}
