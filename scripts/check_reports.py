#!/usr/bin/env python3
"""Compares what `hoxalgurre` prints with values that are not its own, byte for byte:

- its outline, events, headings and HTML, as text and as JSON, with what report_model.py makes of what the proved programs
  `blocks` and `events` print, on all texts of report_texts.py under each set, HTML (report_pages.py) of what `hoxalgurre
  events --inlines` prints;
- the HTML with the pages of examples/cases/html.txt, and what `blocks` prints with the outlines of the rows;
- its labels, arguments, files, messages and statuses with the cases of command_cases.py.

It takes the programs that `rt ci` has built, or those of the folder PROGRAMS, where that is set."""
import os
import sys
import tempfile

os.chdir(os.path.join(os.path.dirname(os.path.abspath(__file__)), ".."))
sys.path.insert(0, "scripts")
sys.dont_write_bytecode = True
from command_cases import Case, command_cases
from report_model import TASKS, html_text, part, report
from report_texts import SETS, chosen, models, pages, program, rows, texts


def report_cases(folder, groups):
    """A case for each report of each group of texts, in each format, under each set. The texts are written to a folder."""
    for at, group in enumerate(groups):
        made = models([(text, constructs) for text in group for constructs in SETS])
        check_rows(made)
        check_pages(made)
        names = [f"{at}-{number}.md" for number in range(len(group))]
        for name, text in zip(names, group):
            with open(os.path.join(folder, name), "wb") as file:
                file.write(text)
        for constructs in reversed(SETS):
            files = [(name, made[text, constructs]) for name, text in zip(names, group)]
            for form in ("text", "json"):
                for task in TASKS:
                    words = [*task.split(), *chosen(constructs), "--format", form, *names]
                    yield Case(words, report(task, form, files).encode(), folder=folder, parts=(task, form, files))


def check_rows(made):
    """The outlines of the rows whose sets the programs take."""
    for row in rows():
        model = made.get((row.text.encode(), row.constructs))
        if model and model.printed != row.output.encode():
            result = model.printed.decode()
            sys.exit(f"reports: blocks {row.constructs} of {row.text!r} prints\n{result}\nand not\n{row.output}")


def check_pages(made):
    """The pages that are written by hand."""
    for page in pages():
        model = made.get((page.text.encode(), page.constructs))
        result = html_text(model) if model else page.wanted
        if result != page.wanted:
            sys.exit(f"reports: examples/cases/html.txt:{page.line}: the model has\n{result}\nand not\n{page.wanted}")


def difference(case, result):
    """What differs: of many files the first one whose report is not printed."""
    task, form, files = case.parts or ("", "", [])
    for file, model in files:
        wanted = part(task, form, file, model, len(files) > 1)
        if wanted.encode() not in result.stdout:
            return f"not printed of {model.source[:300]!r}:\n{wanted[:1000]}"
    at = len(os.path.commonprefix([result.stdout, case.stdout]))
    shown = [(status, stdout[max(at - 50, 0):at + 150], getattr(stderr, "pattern", stderr))
             for status, stdout, stderr in (result, (case.status, case.stdout, case.stderr))]
    return f"from byte {at} {shown[0]}, and not {shown[1]}"


def failure(case, words, environment=None):
    """Why a case fails, or None. `words` are those that start the program."""
    result = case.run(words, environment)
    return None if case.holds(result) else ascii(case.words[:6]) + f" {case.how or ''}: {difference(case, result)}"


def all_cases(folder, is_short=False):
    """All cases, those of short texts first, or these alone."""
    yield from command_cases(folder)
    yield from report_cases(folder, texts()[:1] if is_short else texts())


def main():
    for name in ("blocks", "events", "hoxalgurre"):
        if not os.path.isfile(program(name)):
            sys.exit(f"reports: {program(name)} is not built")
    with tempfile.TemporaryDirectory() as folder:
        passed = failed = 0
        for case in all_cases(folder):
            why = failure(case, [program(case.program)])
            passed, failed = passed + (not why), failed + bool(why)
            if why:
                print(why, flush=True)
        print(f"reports: {passed} passed, {failed} failed")
        sys.exit(failed != 0)


if __name__ == "__main__":
    main()
