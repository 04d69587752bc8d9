//! Texts with what CommonMark says of them, and what holds of every text.
use hoxalgurre::{html, normal_form, parse, parse_bytes, version, Constructs, Error, Kind, Name, Options, Word};

const TEXTS: [&str; 7] = [
    "",
    "# a\n\n> b\nc\n\n- d\n\n[e]: f\n",
    "a\0b\r\nc\rd",
    "\u{feff}+++\nx\n+++\n",
    "|é|\n|-|\n|*ü*|\n",
    ">\t\ta\n>\n>\t b\n",
    "[^a]: *b* `c`\n\n![d](e 'f') <http://g.h>\\\n&amp;",
];

#[test]
fn innermost_parts_lie_side_by_side() {
    for text in TEXTS {
        for options in [Options::COMMONMARK, Options::GFM, Options::ALL, Options::ALERTS] {
            let document = parse(text, options).unwrap();
            let events: Vec<_> = document.events().collect();
            let innermost = events.windows(2).filter(|pair| pair[0].kind == Kind::Enter && pair[1].kind == Kind::Exit);
            let all: String = innermost.map(|pair| pair[0].text).collect();
            assert_eq!(all, text);
            assert!(events.iter().all(|event| event.text == &text[event.range.clone()]));
        }
    }
}

#[test]
fn events_nest_and_have_places() {
    let document = parse("> a\n> [b](/c)", Options::default()).unwrap();
    let mut open = Vec::new();
    for event in document.events() {
        match event.kind {
            Kind::Enter => open.push(event),
            Kind::Exit => assert_eq!(open.pop().unwrap().range, event.range),
        }
    }
    assert!(open.is_empty());
    let link = document.events().find(|event| event.name == Name::Link).unwrap();
    assert_eq!((link.point.line, link.point.column, link.text), (2, 3, "[b](/c)"));
    let paragraph = document.events().find(|event| event.name == Name::Paragraph).unwrap();
    assert_eq!(paragraph.text, "a\n> [b](/c)");
}

#[test]
fn constructs_are_chosen_one_by_one() {
    let has = |options, name| parse("|a|\n|-|\n", options).unwrap().events().any(|event| event.name == name);
    assert!(has(Options::GFM, Name::GfmTable));
    assert!(!has(Options::COMMONMARK, Name::GfmTable));
    assert!(has(Options::COMMONMARK.with(Constructs::GFM_TABLE), Name::GfmTable));
    assert!(!has(Options::GFM.without(Constructs::GFM_TABLE), Name::GfmTable));
    let options = Options::GFM.without(Constructs::INLINES);
    assert!(!options.constructs.contains(Constructs::ATTENTION));
    assert!(!parse("*a*", options).unwrap().events().any(|event| event.name == Name::Emphasis));
}

#[test]
fn labels_are_in_normal_form() {
    let document = parse("[A  b]: c\n[ẞ]: d\n\n[^E]: f\n", Options::GFM).unwrap();
    assert_eq!(document.definitions().collect::<Vec<_>>(), ["a b", "ss"]);
    assert_eq!(document.footnotes().collect::<Vec<_>>(), ["e"]);
    assert_eq!(normal_form("Straße  1"), normal_form("STRASSE\n1"));
    assert_eq!(normal_form("").unwrap(), "");
}

#[test]
fn an_outline_has_blocks_and_texts() {
    let document = parse("## a\n\n> b\n", Options::GFM).unwrap();
    let lines: Vec<_> = document.outline().map(|line| (line.depth, line.word, line.value, line.text)).collect();
    let wanted = [
        (0, Word::Heading, 2, ""),
        (1, Word::Line, 0, "a"),
        (0, Word::Quote, 0, ""),
        (1, Word::Paragraph, 0, ""),
        (2, Word::Line, 0, "b"),
    ];
    assert_eq!(lines, wanted);
}

#[test]
fn html_is_safe_unless_it_is_asked_for() {
    assert_eq!(html("*a* <b>", Options::GFM).unwrap(), "<p><em>a</em> &lt;b&gt;</p>\n");
    let options = Options { unsafe_html: true, ..Options::GFM };
    assert_eq!(html("*a* <b>", options).unwrap(), "<p><em>a</em> <b></p>\n");
}

#[test]
fn bytes_have_to_be_utf_8() {
    assert_eq!(parse_bytes(b"ab\xffc", Options::GFM).err(), Some(Error::NotUtf8(2)));
    assert_eq!(Error::NotUtf8(2).to_string(), "not UTF-8 at byte 2");
}

#[test]
fn names_are_those_of_the_library() {
    assert_eq!(version().split('.').next(), Some("1"));
    for name in Name::ALL {
        assert_eq!(name.text(), format!("{name:?}"));
    }
    assert!(Name::ListItem.is_container() && Name::ListItem.is_block() && !Name::ListItem.is_text_part());
}

#[test]
fn threads_read_at_once() {
    let text = "> - # a\n\n".repeat(500);
    let document = parse(&text, Options::GFM).unwrap();
    std::thread::scope(|scope| {
        for _ in 0..8 {
            scope.spawn(|| {
                assert!(parse(&text, Options::GFM).unwrap().events().eq(document.events()));
            });
        }
    });
}
