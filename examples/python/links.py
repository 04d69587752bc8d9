#!/usr/bin/env python3
"""links.py FILE..: what is wrong with the links of Markdown files: a destination that is no heading of the text and no file
beside it, a definition that is there twice or that nothing refers to. The status is 1 where anything is."""
import os
import sys

from hoxalgurre import Events, labels, normal_form

HEADINGS = ("HeadingAtx", "HeadingSetext")


def targets(events):
    """The anchors of headings (their text in lower case, with `-` for spaces, without other punctuation), and the labels
    of references in normal form."""
    anchors, found, text, label = set(), set(), "", None
    for event in events:
        if event.name in HEADINGS and not event.is_exit:
            text = ""
        elif event.name in ("Data", "CodeTextData") and not event.is_exit:
            text += event.text.lower().replace(" ", "-")
        elif event.name in HEADINGS:
            anchors.add("".join(letter for letter in text if letter.isalnum() or letter in "-_"))
        elif event.name in ("LabelText", "ReferenceString") and event.is_exit:
            label = event.text
        elif event.name == "Resource":
            label = None
        elif event.name in ("Link", "Image") and event.is_exit and label is not None:
            found.add(normal_form(label))
            label = None
    return anchors, found


def faults(file, text):
    """Each fault, with the event where it is."""
    events, definitions, defined = Events(text), iter(labels(text).definitions), set()
    anchors, references = targets(events)
    for event in (event for event in events if not event.is_exit):
        path, mark, anchor = event.text.partition("#")
        if event.name == "DefinitionLabelString":
            label = next(definitions)
            if label in defined:
                yield event, f"duplicate definition [{label}]"
            elif label not in references:
                yield event, f"unused definition [{label}]"
            defined.add(label)
        elif event.name in ("ResourceDestinationString", "DefinitionDestinationString"):
            if not path and anchor and anchor not in anchors:
                yield event, f"no such heading #{anchor}"
            elif path and ":" not in path and not os.path.exists(os.path.join(os.path.dirname(file), path)):
                yield event, f"no such file {path}"


status = 0
for name in sys.argv[1:]:
    for where, why in faults(name, open(name, "rb").read()):
        print(f"{name}:{where.line}:{where.column}: {why}")
        status = 1
sys.exit(status)
