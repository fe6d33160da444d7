#!/usr/bin/env python3
"""Holds the scripts and reports of the documents against the cases that the gate runs.

    python3 bench/pages.py            # what differs, with status 1
    python3 bench/pages.py --write    # writes the files of cases from the pages

In a page each block ```sql is a script, and the block ```text behind it its report; a last line
`status N` in that is the program's status, where it is not 0. From a line `<!-- one log -->` to a line
`<!-- end -->` the scripts run one after the other over one log, without workers; a line `<!-- only .. -->`
or `<!-- call .. -->` is the step of the next script in place of that (`run_cases` has the steps). A script
below a line that links to a file of examples/ is that file.
"""

import re
import sys
from pathlib import Path

TOP = Path(__file__).resolve().parent.parent
DATA = TOP / "crates" / "run_cases" / "data"
PAGES = {
    "README.md": "page_readme.cases",
    "docs/EXAMPLES.md": "page_examples.cases",
    "docs/LANGUAGE.md": "page_language.cases",
}
# How a case runs a script over its log: without workers, so that its report tells the same each time.
RUN = "call run log --workers 0"
STEP = re.compile(r"<!-- ((?:only|call) .*) -->")
LINK = re.compile(r"\((?:\.\./)?(examples/\w+\.sql)\)")


class Page:
    """The cases of a page, each a title with triples of a step, a script and its report, and what is wrong with it."""

    def __init__(self, name):
        self.name, self.cases, self.wrong, self.files = name, [], [], set()
        self.heading, self.counts, self.link, self.script, self.is_one_log = "", {}, None, None, False
        self.step = RUN
        lines = iter((TOP / name).read_text().splitlines())
        for line in lines:
            if line.startswith("```"):
                block = []
                for inner in lines:
                    if inner == "```":
                        break
                    block.append(inner)
                self.take(line[3:], "\n".join(block))
            elif line == "<!-- one log -->":
                self.is_one_log = True
                self.cases.append((self.title(), True, []))
            elif line == "<!-- end -->":
                self.is_one_log = False
            elif STEP.fullmatch(line):
                self.step = STEP.fullmatch(line).group(1)
            elif line.startswith("#"):
                self.heading = line.lstrip("# ")
            found = LINK.findall(line)
            self.link = found[-1] if found else self.link
        if self.script is not None:
            self.wrong.append(f"{name}: a script without a report: {self.script[:60]}")

    def title(self):
        """The title of the next case: the heading, with a number from the second on."""
        count = self.counts[self.heading] = self.counts.get(self.heading, 0) + 1
        return f"{self.name}: {self.heading}" + (f", {count}" if count > 1 else "")

    def take(self, kind, text):
        """Takes a block of the page."""
        if kind == "sql":
            if self.script is not None:
                self.wrong.append(f"{self.name}: a script without a report: {self.script[:60]}")
            self.script = text
            if self.link:
                self.files.add(self.link)
                file = TOP / self.link
                if not file.is_file() or file.read_text() != text + "\n":
                    self.wrong.append(f"{self.name}: {self.link} has not the script below its link")
            self.link = None
        elif kind == "text" and self.script is not None:
            if not self.is_one_log:
                self.cases.append((self.title(), False, []))
            self.cases[-1][2].append((self.step, self.script, text))
            self.step, self.script = RUN, None

    def text(self):
        """The file of these cases."""
        parts = []
        for title, is_one_log, pairs in self.cases:
            steps = [f"$ {step}\n{script}" for step, script, _ in pairs]
            shown = "\n".join(["$ call create log", *steps]) if is_one_log else pairs[0][1] + "\n"
            told = "\n".join(["created", *[report for _, _, report in pairs]]) if is_one_log else pairs[0][2]
            parts.append(f"=== {title}\n{shown}\n---\n{told}\n")
        return "".join(parts)


def differences(page, file):
    """What differs between the cases of a page and the file that has them."""
    here = page.text().splitlines()
    there = (DATA / file).read_text().splitlines() if (DATA / file).is_file() else []
    for number, (one, other) in enumerate(zip(here + [None], there + [None]), 1):
        if one != other:
            return [f"{page.name} and {file}, line {number}: {one!r} and {other!r}"]
    return []


def shown_in_cases():
    """The files of examples/ that stand in examples.cases, and those of these that it has otherwise."""
    parts = ("\n" + (DATA / "examples.cases").read_text()).split("\n=== ")[1:]
    scripts = {part.partition("\n")[0]: part.partition("\n")[2].partition("\n---\n")[0] for part in parts}
    shown = {f"examples/{title}" for title in scripts}
    wrong = [
        f"examples.cases has not the script of {name}"
        for name in sorted(shown)
        if not (TOP / name).is_file() or (TOP / name).read_text() != scripts[Path(name).name]
    ]
    return shown, wrong


def main():
    pages = {Page(name): file for name, file in PAGES.items()}
    if "--write" in sys.argv[1:]:
        for page, file in pages.items():
            (DATA / file).write_text(page.text())
    shown, wrong = shown_in_cases()
    for page, file in pages.items():
        shown |= page.files
        wrong += page.wrong + differences(page, file)
    for file in sorted((TOP / "examples").glob("*.sql")):
        if f"examples/{file.name}" not in shown:
            wrong.append(f"examples/{file.name} is in no case")
    if wrong:
        sys.exit("\n".join(wrong))
    count = sum(len(pairs) for page in pages for _, _, pairs in page.cases)
    print(f"{count} scripts of {len(pages)} pages are the cases that the gate runs")


main()
