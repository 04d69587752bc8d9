"""The HTML that `hoxalgurre html` has to print of a text, from the events that `hoxalgurre events --inlines` prints of it.

Events say what is in a text; the page is that of the examples of CommonMark 0.31.2 and of GFM, and where these have
none that of the ported crate (footnotes, math) or of GitHub (alerts); docs/rendering.md says what else differs."""
import html.entities
import re
import sys
import urllib.parse
from collections import namedtuple

sys.setrecursionlimit(20000)

PHRASES = {"Emphasis": "em", "Strong": "strong", "GfmStrikethrough": "del"}
TEXTS = ("Paragraph", "HeadingAtxText", "HeadingSetextText", "GfmTableCellText")
# What an address has before it that leads somewhere.
ADDRESSES = {"AutolinkProtocol": "", "AutolinkEmail": "mailto:", "GfmAutolinkLiteralProtocol": "", "GfmAutolinkLiteralMailto": "",
             "GfmAutolinkLiteralXmpp": "", "GfmAutolinkLiteralEmail": "mailto:", "GfmAutolinkLiteralWww": "http://"}
HIDDEN = ("Resource", "Reference", "LabelLink", "LabelImage", "LabelEnd")
CHUNKS = ("CodeFlowChunk", "MathFlowChunk", "HtmlFlowData", "FrontmatterChunk")
# The parts that have a line in the outline, without the rows of tables.
BLOCKS = ("Frontmatter BlockQuote ListOrdered ListUnordered ListItem GfmFootnoteDefinition HeadingAtx HeadingSetext "
          "ThematicBreak CodeIndented CodeFenced MathFlow HtmlFlow Definition Paragraph GfmTable GfmTableRow").split()
FENCES = ("CodeFencedFence", "MathFlowFence")
LINKS, IMAGES = ("http", "https", "irc", "ircs", "mailto", "xmpp"), ("http", "https")
ALIGNED = {"::": ' align="center"', ": ": ' align="left"', " :": ' align="right"', "  ": ""}

Event = namedtuple("Event", "enters name line column offset virtual")


class Part:
    """A part of the text, with those in it, the part around it, and the block that it is."""

    def __init__(self, start, outer):
        self.name, self.start, self.end, self.inner, self.outer, self.block = start.name, start, None, [], outer, None

    def all(self, *names):
        """The parts with these names within, in the order of the text."""
        found = []
        for inner in self.inner:
            found += [inner] if inner.name in names else []
            found += inner.all(*names)
        return found

    def around(self, *names):
        """The innermost part with one of these names around it."""
        outer = self.outer
        while outer and outer.name not in names:
            outer = outer.outer
        return outer


def read_events(printed):
    """The events that `events` has printed."""
    found = []
    for line in printed.decode().split("\n")[:-1]:
        sign, name, *numbers = line.split()
        found.append(Event(sign == "+", name, *map(int, numbers)))
    return found


def parts(events, blocks):
    """The outermost parts, and all of them."""
    roots, found, outer, blocks = [], [], None, iter(blocks)
    for event in events:
        if event.enters:
            part = Part(event, outer)
            part.block = next(blocks) if event.name in BLOCKS else None
            (outer.inner if outer else roots).append(part)
            found.append(part)
            outer = part
        else:
            outer.end = event
            outer = outer.outer
    return roots, found


def last_line(block):
    """The last line of a block, without blank lines after its last block."""
    if block.is_one("list", "item", "footnote"):
        return last_line(block.inner[-1]) if block.inner else block.start.line
    return block.end.line


def is_loose(block):
    """Whether a blank line separates two items, or two blocks directly in an item (CommonMark 5.3)."""
    together = [block.inner] + [item.inner for item in block.inner]
    pairs = [pair for blocks in together for pair in zip(blocks, blocks[1:])]
    return any(after.start.line - last_line(before) > 1 for before, after in pairs)


def escaped(text):
    for char, name in (("&", "&amp;"), ("<", "&lt;"), (">", "&gt;"), ('"', "&quot;"), ("\0", "\ufffd")):
        text = text.replace(char, name)
    return text


def address(text):
    quoted = urllib.parse.quote(text.replace("\0", "\ufffd"), safe="!#$%&'()*+,-./:;=?@_~")
    return quoted.replace("&", "&amp;").replace("'", "&#x27;")


def named(label):
    """A label in an `id`."""
    return "%25".join(address(part) for part in label.split("%"))


def character(reference):
    """What a character reference means (CommonMark 2.5)."""
    number = re.fullmatch(r"&#(?:[xX]([0-9a-fA-F]+)|([0-9]+));", reference)
    if not number:
        return html.entities.html5[reference[1:]]
    value = int(number[1], 16) if number[1] else int(number[2])
    return "\ufffd" if value == 0 or value > 0x10ffff or 0xd800 <= value < 0xe000 else chr(value)


def normal(label):
    """The normal form of a label (CommonMark 6.3)."""
    return re.sub(r"[ \t\r\n]+", " ", label).strip(" ").casefold()


def is_safe(text, protocols):
    before = re.match(r"[^:/?#]*", text)[0]
    return text[len(before):len(before) + 1] != ":" or before.lower() in protocols


class Page:
    """The page of a text."""

    def __init__(self, model, is_unsafe=False, ids=()):
        self.source, self.is_unsafe, self.ids = model.source, is_unsafe, iter(ids)
        ending = re.search(rb"\r\n|\n|\r", model.source)
        self.ending = ending[0].decode() if ending else "\n"
        self.roots, found = parts(read_events(model.inlines), model.blocks)
        self.definitions, self.notes = {}, {}
        for form, part in zip(model.definitions, (part for part in found if part.name == "Definition")):
            self.definitions.setdefault(form, part)
        for form, part in zip(model.footnotes, (part for part in found if part.name == "GfmFootnoteDefinition")):
            self.notes.setdefault(form, part)
        self.number(found)
        self.made = ""
        self.headings(found)
        for part in self.roots:
            self.write(part, False)
        self.section()

    def headings(self, found):
        self.own = {id(part): next(self.ids, "") for part in found if part.name in ("HeadingAtx", "HeadingSetext")}

    def text(self, part):
        return self.source[part.start.offset:part.end.offset].decode()

    # Footnotes.

    def called(self, call):
        form = normal(self.label(call))
        return form if form in self.notes else None

    def label(self, part):
        """A label as it is in the text, without what containers take of its lines."""
        text = next(iter(part.all("LabelText")))
        return self.label_of(text)

    def label_of(self, part):
        if not part.inner:
            return {"LineEnding": " ", "SpaceOrTab": "", "BlockQuoteMarker": ""}.get(part.name) if part.name in (
                "LineEnding", "SpaceOrTab", "BlockQuoteMarker") else self.text(part)
        return "".join(self.label_of(inner) for inner in part.inner)

    def is_hidden(self, call):
        """Whether nothing is shown of a call: in the text of an image, or after the last column."""
        if call.around("Image"):
            return True
        cell = call.around("GfmTableCell")
        if not cell:
            return False
        cells = [part for part in cell.outer.inner if part.name == "GfmTableCell"]
        return cells.index(cell) >= len(self.columns(cell.around("GfmTable")))

    def number(self, found):
        """Numbers the footnotes that something calls that is shown, in the order of their first calls."""
        calls = [part for part in found if part.name == "GfmFootnoteCall" and self.called(part) and not self.is_hidden(part)]
        inside = lambda call: call.around("GfmFootnoteDefinition")
        reached, left = set(), [self.called(call) for call in calls if not inside(call)]
        while left:
            form = left.pop()
            if form not in reached:
                reached.add(form)
                left += [self.called(call) for call in calls if inside(call) is self.notes[form]]
        shown = [call for call in calls if not inside(call) or any(inside(call) is self.notes[form] for form in reached)]
        self.order, self.calls = [], {}
        for call in shown:
            form = self.called(call)
            if form not in self.order:
                self.order.append(form)
            self.calls.setdefault(form, []).append(call)

    def call_id(self, form, nth):
        """The `id` of a call; where it is that of a label too, zeros are between."""
        zeros = ""
        while nth > 1 and f"{form}-{zeros}{nth}" in self.notes:
            zeros += "0"
        return "user-content-fnref-" + named(form) + (f"-{zeros}{nth}" if nth > 1 else "")

    def call(self, part):
        form = self.called(part)
        if part not in self.calls.get(form, []):
            return ""
        nth = self.calls[form].index(part) + 1
        return (f'<sup><a href="#user-content-fn-{named(form)}" id="{self.call_id(form, nth)}" data-footnote-ref="" '
                f'aria-describedby="footnote-label">{self.order.index(form) + 1}</a></sup>')

    def section(self):
        if not self.order:
            return
        end = self.ending
        before = self.begun(self.made)
        self.made = ""
        items = ""
        for form in self.order:
            self.made = ""
            for inner in self.notes[form].inner:
                self.write(inner, False)
            body = self.made
            backs = []
            for nth in range(1, len(self.calls[form]) + 1):
                number = f"<sup>{nth}</sup>" if nth > 1 else ""
                backs.append(f'<a href="#{self.call_id(form, nth)}" data-footnote-backref="" aria-label="Back to content" '
                             f'class="data-footnote-backref">\u21a9{number}</a>')
            is_text = body.endswith("</p>" + end)
            body = body[:-len("</p>" + end)] + " " + " ".join(backs) + "</p>" if is_text else body + " ".join(backs)
            items += f'<li id="user-content-fn-{named(form)}">{end}{body}{end}</li>{end}'
        self.made = (f'{before}<section data-footnotes="" class="footnotes"><h2 id="footnote-label" class="sr-only">Footnotes'
                     f"</h2>{end}<ol>{end}{items}</ol>{end}</section>{end}")

    # Blocks.

    def begun(self, made):
        return made + self.ending if made and made[-1] not in "\r\n" else made

    def line(self, text):
        """Begins a line of the page."""
        self.made = self.begun(self.made) + text

    def write(self, part, is_tight):
        writer = getattr(self, "write_" + part.name, None)
        if writer:
            writer(part, is_tight)

    def inside(self, part, is_tight=False):
        for inner in part.inner:
            self.write(inner, is_tight)

    def write_Paragraph(self, part, is_tight):
        if is_tight:
            self.made += self.phrases(part)
        else:
            self.line(f"<p>{self.phrases(part)}</p>{self.ending}")

    def write_HeadingAtx(self, part, _is_tight):
        tag = "h" + part.block.words.split(" ")[1]
        own = self.own[id(part)]
        attribute = f' id="{escaped(own)}"' if own else ""
        texts = (self.phrases(text) for text in part.inner if text.name in TEXTS)
        self.line(f"<{tag}{attribute}>{''.join(texts)}</{tag}>{self.ending}")

    write_HeadingSetext = write_HeadingAtx

    def write_ThematicBreak(self, _part, _is_tight):
        self.line("<hr />" + self.ending)

    def lines(self, part):
        """The lines of a block, each with its ending; the lines of fences are none."""
        made, is_begun, fences = "", part.name in ("CodeIndented", "HtmlFlow"), 0
        for inner in part.inner:
            if inner.name in FENCES:
                fences, is_begun = fences + 1, False
            elif inner.name == "LineEnding" and fences < 2:
                made += self.text(inner) if is_begun else ""
                is_begun = inner.end.offset < len(self.source)
            elif inner.name in CHUNKS:
                start = inner.start
                spaces = 4 - (start.column - 1) % 4 if start.virtual else 0
                made += " " * spaces + self.source[start.offset + (1 if spaces else 0):inner.end.offset].decode()
        return made + self.ending if is_begun else made

    def code(self, part, attribute):
        self.line(f"<pre><code{attribute}>{escaped(self.lines(part))}</code></pre>{self.ending}")

    def write_CodeIndented(self, part, _is_tight):
        self.code(part, "")

    def write_CodeFenced(self, part, _is_tight):
        infos = part.all("CodeFencedFenceInfo")
        self.code(part, "".join(f' class="language-{escaped(self.string(info))}"' for info in infos))

    def write_MathFlow(self, part, _is_tight):
        self.code(part, ' class="language-math math-display"')

    def write_HtmlFlow(self, part, _is_tight):
        self.line(self.raw(self.lines(part)))

    def raw(self, text):
        return text.replace("\0", "\ufffd") if self.is_unsafe else escaped(text)

    def write_BlockQuote(self, part, _is_tight):
        words = part.block.words.split(" ")
        if words[0] == "alert":
            self.line(f'<div class="markdown-alert markdown-alert-{words[1]}">{self.ending}')
            self.made += f'<p class="markdown-alert-title">{words[1].capitalize()}</p>{self.ending}'
        else:
            self.line("<blockquote>" + self.ending)
        self.inside(part)
        self.line(("</div>" if words[0] == "alert" else "</blockquote>") + self.ending)

    def write_ListUnordered(self, part, _is_tight, tag="ul", attribute=""):
        self.line(f"<{tag}{attribute}>{self.ending}")
        for item in part.inner:
            if item.name == "ListItem":
                self.line("<li>")
                self.inside(item, not is_loose(part.block))
                self.made += "</li>" + self.ending
        self.made += f"</{tag}>{self.ending}"

    def write_ListOrdered(self, part, is_tight):
        number = int(self.text(part.all("ListItemValue")[0]))
        self.write_ListUnordered(part, is_tight, "ol", "" if number == 1 else f' start="{number}"')

    def columns(self, table):
        """The attribute of each column, by its cell in the delimiter row."""
        cells = [self.text(cell).strip("| \t") for cell in table.all("GfmTableDelimiterCell")]
        return [ALIGNED[(":" if cell[0] == ":" else " ") + (":" if cell[-1] == ":" else " ")] for cell in cells]

    def write_GfmTable(self, part, _is_tight):
        end, columns = self.ending, self.columns(part)
        head, *body = part.all("GfmTableRow")
        self.line(f"<table>{end}<thead>{end}{self.row(head, 'th', columns)}</thead>{end}")
        if body:
            self.made += f"<tbody>{end}{''.join(self.row(one, 'td', columns) for one in body)}</tbody>{end}"
        self.made += "</table>" + end

    def row(self, part, tag, columns):
        """A row: cells that have no column are left out, and missing ones are empty (GFM 4.10)."""
        cells = ["".join(self.phrases(text) for text in cell.inner if text.name in TEXTS)
                 for cell in part.inner if cell.name == "GfmTableCell"]
        cells += [""] * len(columns)
        made = "".join(f"<{tag}{column}>{cell}</{tag}>{self.ending}" for column, cell in zip(columns, cells))
        return f"<tr>{self.ending}{made}</tr>{self.ending}"

    # What is in a text.

    def string(self, part):
        """What a string means: escapes and character references are read."""
        if part.name == "CharacterReference":
            return character(self.text(part))
        if not part.inner:
            return self.text(part) if part.name in ("Data", "CharacterEscapeValue", "LineEnding") else ""
        return "".join(self.string(inner) for inner in part.inner)

    def phrases(self, part, is_plain=False, is_link=False):
        return "".join(self.phrase(inner, is_plain, is_link) for inner in part.inner)

    def phrase(self, part, is_plain, is_link):
        """A part of a text; plain in an image, where no tag is written."""
        name = part.name
        if name in HIDDEN:
            return ""
        if name in PHRASES and not is_plain:
            return f"<{PHRASES[name]}>{self.phrases(part, is_plain, is_link)}</{PHRASES[name]}>"
        if name in ADDRESSES:
            return self.autolink(part, is_plain)
        writer = getattr(self, "phrase_" + name, None)
        return writer(part, is_plain, is_link) if writer else self.phrases(part, is_plain, is_link)

    def phrase_Data(self, part, _is_plain, _is_link):
        return escaped(self.text(part))

    phrase_CharacterEscapeValue = phrase_Data

    def phrase_CharacterReference(self, part, _is_plain, _is_link):
        return escaped(character(self.text(part)))

    def phrase_LineEnding(self, part, is_plain, _is_link):
        return " " if is_plain else self.text(part)

    def phrase_HardBreakEscape(self, _part, is_plain, _is_link):
        return "" if is_plain else "<br />"

    phrase_HardBreakTrailing = phrase_HardBreakEscape

    def is_cell(self, part):
        return part.around("GfmTableCell") is not None

    def unbarred(self, part, text):
        return text.replace("\\|", "|") if self.is_cell(part) else text

    def phrase_CodeText(self, part, is_plain, _is_link, attribute=""):
        """Code without the space that it may have at both ends (CommonMark 6.1)."""
        pieces = {"CodeTextData": self.text, "MathTextData": self.text, "LineEnding": lambda _: " "}
        text = "".join(pieces[inner.name](inner) for inner in part.inner if inner.name in pieces)
        text = self.unbarred(part, text)
        if text[:1] == text[-1:] == " " and text.strip(" "):
            text = text[1:-1]
        return escaped(text) if is_plain else f"<code{attribute}>{escaped(text)}</code>"

    def phrase_MathText(self, part, is_plain, is_link):
        return self.phrase_CodeText(part, is_plain, is_link, ' class="language-math math-inline"')

    def phrase_HtmlText(self, part, is_plain, _is_link):
        pieces = (inner for inner in part.inner if inner.name in ("HtmlTextData", "LineEnding"))
        if is_plain:
            return "".join(" " if piece.name == "LineEnding" else escaped(self.unbarred(part, self.text(piece))) for piece in pieces)
        return self.raw("".join(self.unbarred(part, self.text(piece)) for piece in pieces))

    def autolink(self, part, is_plain):
        text, before = self.unbarred(part, self.text(part)), ADDRESSES[part.name]
        if is_plain:
            return escaped(text)
        led = before + address(text) if before or self.is_unsafe or is_safe(text, LINKS) else ""
        return f'<a href="{led}">{escaped(text)}</a>'

    def target(self, part):
        """The destination and the title of a link or an image."""
        resource = [inner for inner in part.inner if inner.name == "Resource"]
        if resource:
            named_by, names = resource[0], ("ResourceDestinationString", "ResourceTitleString")
        else:
            references = [inner for inner in part.inner if inner.name == "Reference"]
            strings = [string for reference in references for string in reference.all("ReferenceString")]
            label = next(inner for inner in part.inner if inner.name == "Label")
            text = self.label_of(strings[0]) if strings else self.label_of(next(
                inner for inner in label.inner if inner.name == "LabelText"))
            named_by, names = self.definitions[normal(text)], ("DefinitionDestinationString", "DefinitionTitleString")
        strings = ["".join(self.string(string) for string in named_by.all(name)[:1]) for name in names]
        return strings[0], f' title="{escaped(strings[1])}"' if strings[1] else ""

    def led(self, text, protocols):
        return address(text) if self.is_unsafe or is_safe(text, protocols) else ""

    def phrase_Link(self, part, is_plain, is_link):
        text = self.phrases(part, is_plain, True)
        if is_plain or is_link:
            return text
        destination, title = self.target(part)
        return f'<a href="{self.led(destination, LINKS)}"{title}>{text}</a>'

    def phrase_Image(self, part, is_plain, is_link):
        text = self.phrases(part, True, is_link)
        if is_plain:
            return text
        destination, title = self.target(part)
        return f'<img src="{self.led(destination, IMAGES)}" alt="{text}"{title} />'

    def phrase_GfmFootnoteCall(self, part, is_plain, _is_link):
        return "" if is_plain else self.call(part)

    def phrase_GfmTaskListItemCheck(self, part, is_plain, _is_link):
        checked = 'checked="" ' if part.all("GfmTaskListItemValueChecked") else ""
        return "" if is_plain else f'<input type="checkbox" disabled="" {checked}/>'
