"""Texts with what CommonMark says of them, and what holds of every text."""
import doctest
import threading
import unittest

import hoxalgurre
from hoxalgurre import INLINES, NAMES, SETS, Constructs, Events, _library, html, labels, normal_form, outline, tree

TEXTS = ["", "# a\n\n> b\nc\n\n- d\n\n[e]: f\n", "a\0b\r\nc\rd", "\ufeff+++\nx\n+++\n", "|\u00e9|\n|-|\n|*\u00fc*|\n",
         ">\t\ta\n>\n>\t b\n", "[^a]: *b* `c`\n\n![d](e 'f') <http://g.h>\\\n&amp;"]


class Library(unittest.TestCase):
    def test_innermost_parts_lie_side_by_side(self):
        for text in TEXTS:
            for constructs in [*SETS, SETS["gfm"] & ~INLINES]:
                events = Events(text, constructs)
                pairs = zip(events, events[1:])
                innermost = [enter.text for enter, leave in pairs if not enter.is_exit and leave.is_exit]
                self.assertEqual("".join(innermost), text)

    def test_events_nest_and_have_places(self):
        events = Events("> a\n> [b](/c)")
        opened = []
        for event in events:
            if event.is_exit:
                self.assertEqual(opened.pop(), (event.name, event.text))
            else:
                opened.append((event.name, event.text))
        self.assertEqual(opened, [])
        link = next(event for event in events if event.name == "Link")
        self.assertEqual((link.line, link.column, link.text), (2, 3, "[b](/c)"))

    def test_a_tree_has_parts_in_parts(self):
        root = tree(b"> a\n> b")
        self.assertEqual([node.name for node in root.children], ["BlockQuote"])
        paragraph = next(node for node in root.walk() if node.name == "Paragraph")
        self.assertEqual((paragraph.text, paragraph.line, paragraph.column, paragraph.index), ("a\n> b", 1, 3, 2))

    def test_constructs_are_chosen_one_by_one(self):
        def has_table(constructs):
            return any(event.name == "GfmTable" for event in Events("|a|\n|-|\n", constructs))
        self.assertTrue(has_table("gfm"))
        self.assertFalse(has_table("commonmark"))
        self.assertTrue(has_table(SETS["commonmark"] | Constructs.GFM_TABLE))
        with self.assertRaises(KeyError):
            Events("a", "none")
        with self.assertRaises(hoxalgurre.Refused):
            Events("a", Constructs(1 << 63))

    def test_labels_are_in_normal_form(self):
        self.assertEqual(labels("[A  b]: c\n[\u1e9e]: d\n\n[^E]: f\n"), (["a b", "ss"], ["e"]))
        self.assertEqual(normal_form("Stra\u00dfe  1"), normal_form("STRASSE\n1"))
        self.assertEqual(normal_form(""), "")

    def test_an_outline_has_blocks_and_texts(self):
        lines = [(line.depth, line.word, line.value, line.text) for line in outline("## a\n\n> b\n")]
        self.assertEqual(lines, [(0, "heading", 2, ""), (1, "line", 0, "a"), (0, "quote", 0, ""),
                                 (1, "paragraph", 0, ""), (2, "line", 0, "b")])

    def test_html_is_safe_unless_it_is_asked_for(self):
        self.assertEqual(html("*a* <b>"), "<p><em>a</em> &lt;b&gt;</p>\n")
        self.assertEqual(html("*a* <b>", unsafe=True), "<p><em>a</em> <b></p>\n")

    def test_bytes_have_to_be_utf_8(self):
        with self.assertRaises(hoxalgurre.Refused) as caught:
            Events(b"ab\xffc")
        self.assertEqual((caught.exception.status, caught.exception.valid), (1, 2))
        self.assertEqual(str(caught.exception), "not UTF-8 at byte 2")

    def test_names_are_those_of_the_library(self):
        self.assertEqual(hoxalgurre.version().split(".")[0], "1")
        self.assertEqual(tuple(map(_library.name_text, range(len(NAMES)))), NAMES)
        self.assertTrue(hoxalgurre.is_block("ListItem"))
        self.assertFalse(hoxalgurre.is_block("Data"))

    def test_threads_read_at_once(self):
        text = "> - # a\n\n" * 200
        wanted, found = list(Events(text)), []
        threads = [threading.Thread(target=lambda: found.append(list(Events(text)) == wanted)) for _ in range(8)]
        for thread in threads:
            thread.start()
        for thread in threads:
            thread.join()
        self.assertEqual(found, [True] * 8)

    def test_the_examples_of_the_package(self):
        self.assertEqual(doctest.testmod(hoxalgurre).failed, 0)


if __name__ == "__main__":
    unittest.main()
