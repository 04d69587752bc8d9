//! links FILE..: what is wrong with the links of Markdown files: a destination that is no heading of the text and no file
//! beside it, a definition that is there twice or that nothing refers to. The status is 1 where anything is.
use hoxalgurre::{normal_form, parse, Document, Error, Kind, Name, Options};
use std::{collections::HashSet, path::Path};

/// The anchors of headings (their text in lower case, with `-` for spaces, without other punctuation), and the labels of
/// references in normal form.
fn targets(document: &Document) -> Result<(HashSet<String>, HashSet<String>), Error> {
    let (mut anchors, mut labels, mut text, mut label) = (HashSet::new(), HashSet::new(), String::new(), None);
    for event in document.events() {
        match (event.kind, event.name) {
            (Kind::Enter, Name::HeadingAtx | Name::HeadingSetext) => text.clear(),
            (Kind::Enter, Name::Data | Name::CodeTextData) => text += &event.text.to_lowercase().replace(' ', "-"),
            (Kind::Exit, Name::HeadingAtx | Name::HeadingSetext) => {
                text.retain(|letter| letter.is_alphanumeric() || "-_".contains(letter));
                anchors.insert(text.clone());
            }
            (Kind::Exit, Name::LabelText) | (Kind::Enter, Name::ReferenceString) => label = Some(event.text),
            (Kind::Enter, Name::Resource) => label = None,
            (Kind::Exit, Name::Link | Name::Image) => labels.extend(label.take().map(normal_form).transpose()?),
            _ => {}
        }
    }
    Ok((anchors, labels))
}

fn main() -> Result<(), Box<dyn std::error::Error>> {
    let mut status = 0;
    for file in std::env::args().skip(1) {
        let text = std::fs::read_to_string(&file)?;
        let document = parse(&text, Options::GFM)?;
        let (anchors, references) = targets(&document)?;
        let (mut definitions, mut defined) = (document.definitions(), HashSet::new());
        for event in document.events().filter(|event| event.kind == Kind::Enter) {
            let (path, anchor) = event.text.split_once('#').unwrap_or((event.text, ""));
            let wrong = match event.name {
                Name::DefinitionLabelString => match definitions.next().unwrap_or_default() {
                    label if !defined.insert(label) => format!("duplicate definition [{label}]"),
                    label if !references.contains(label) => format!("unused definition [{label}]"),
                    _ => continue,
                },
                Name::ResourceDestinationString | Name::DefinitionDestinationString => match path {
                    "" if anchor.is_empty() || anchors.contains(anchor) => continue,
                    "" => format!("no such heading #{anchor}"),
                    _ if path.contains(':') || Path::new(&file).with_file_name(path).exists() => continue,
                    _ => format!("no such file {path}"),
                },
                _ => continue,
            };
            println!("{file}:{}:{}: {wrong}", event.point.line, event.point.column);
            status = 1;
        }
    }
    std::process::exit(status)
}
