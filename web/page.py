#!/usr/bin/env python3
"""Puts lineup.html together: web/template.html with the module, the editor, the examples and the scripts of web/ in it.

    web/page.py MODULE PAGE STACK VERSION

`scripts/page` runs it. The editor is CodeMirror 5 as Debian packages it (libjs-codemirror). Its licence goes into the page.
The words of both languages are those of editors/vscode."""
import base64
import gzip
import json
import pathlib
import re
import sys

root = pathlib.Path(__file__).resolve().parent.parent
CODEMIRROR = pathlib.Path("/usr/share/javascript/codemirror")
COPYRIGHT = pathlib.Path("/usr/share/doc/libjs-codemirror/copyright")

# The objects that the sources are grouped by: a source belongs to the first one whose words are in its name.
OBJECTS = [
    ("Counters", r"counter"),
    ("Queues", r"queue|blocking-collection"),
    ("Deques and stacks", r"deque|stack|hazard-pointers"),
    ("Lists, dictionaries and bags", r"list|dictionary|bag"),
    ("Locks", r"lock-order|spin-order|(?<!seq)lock(?!ing)|mutex|peterson|dekker|lamport"),
    ("Events, semaphores and barriers", r"event|semaphore|barrier|source|parker|condition"),
    ("Values that are made once", r"lazy"),
    ("Pairs that are read together", r"seqlock|read-copy-update"),
    ("Other objects", r""),
]
# Bundles that are no component and matrix, with a specification or not, and further matrices of a component.
OTHERS = re.compile(r"\.(campaign|refute|replay|shrink|\d+)\.")


def comment(text):
    """The comment that a text begins with."""
    lines = []
    for line in text.splitlines():
        if not line.startswith("#"):
            break
        lines.append(line.lstrip("# "))
    return " ".join(lines)


def described(name):
    """What a page of examples/ says of a component: the last cell of its row, or its entry in a list."""
    gallery, literature = ((root / "examples" / page).read_text() for page in ("README.md", "literature/README.md"))
    row = re.search(rf"^\| [^|\n]*`{name}`[^|\n]*\|.*\| (.*) \|$", gallery, re.M)
    entry = re.search(rf"^- `{name}`[^:\n]*(?:\(right: [^)]*\))?[^:\n]*: ([^*\n]*)", literature, re.M)
    wrong = re.search(rf"^- `([a-z-]*)` \(right: `{name}`\)", literature, re.M)
    return row[1] if row else entry[1] if entry else f"The correct form of {wrong[1]}." if wrong else ""


def sentence(words):
    """The first sentence; the full stop after an initial ends none."""
    first = re.split(r"(?<=[^A-Z][.!?]) (?=[A-Z`])", words.strip())[0].replace("`", "")
    return first[:1].upper() + first[1:]


def example(group, name, text):
    title = name.split("/")[1]
    return {"group": group, "name": name, "title": title, "about": sentence(comment(text) or described(title)), "text": text}


def texts(folder, suffix):
    """The texts of a folder of examples/, by name."""
    for file in sorted((root / "examples" / folder).glob("*" + suffix)):
        if not OTHERS.search(file.name):
            yield file.name.removesuffix(suffix), file.read_text()


def examples():
    sources = [(next(group for group, words in OBJECTS if re.search(words, name)), name, text)
               for name, text in texts("sources", ".lineup")]
    for group, _ in OBJECTS:
        yield from (example(group, f"sources/{name}", text) for its, name, text in sources if its == group)
    yield from (example("Recorded runs", f"recorded/{name}", text) for name, text in texts("recorded", ".runs"))
    # the exercises of the course as students begin with them: nothing of hidden/
    for start in sorted((root / "examples/course").glob("*/start.lineup")):
        yield example("Exercises", f"exercises/{start.parent.name}",
                      start.read_text() + "---\n" + (start.parent / "matrix").read_text())
    yield from (example("Idioms", f"idioms/{name}", text) for name, text in texts("idioms", ".lineup"))
    yield from (example("What a pass may hide", f"passes/{name}", text) for name, text in texts("passes", ".bundle"))
    yield from (example("Components", f"examples/{name}", text) for name, text in texts(".", ".bundle"))
    yield from (example("Components of the literature", f"literature/{name}", text) for name, text in texts("literature", ".bundle"))


def licence():
    """The copyright and the licence of CodeMirror, as Debian's package states them."""
    words = COPYRIGHT.read_text()
    whose = re.search(r"^Files: \*\n(Copyright: .*)$", words, re.M)[1]
    text = re.search(r"^License: Expat\n((?: .*\n)+)", words, re.M)[1]
    return (whose + "\n" + re.sub(r"(?m)^ \.?", "", text)).replace("--", "- -")


def main():
    module, page, stack, version = sys.argv[1:]

    def as_json(value):
        return json.dumps(value).replace("</", "<\\/")

    def script(*files):
        text = "\n".join(file.read_text() for file in files)
        assert "</script" not in text
        return text

    web = root / "web"
    values = {
        "LICENCE": licence(),
        "EDITOR_STYLE": (CODEMIRROR / "lib/codemirror.css").read_text(),
        "STYLE": (web / "page.css").read_text(),
        "MODULE": base64.b64encode(gzip.compress(pathlib.Path(module).read_bytes(), 9, mtime=0)).decode(),
        "FACTS": as_json({"stack": int(stack), "version": version}),
        "GRAMMAR": as_json(json.loads((root / "editors/vscode/lineup.tmLanguage.json").read_text())),
        "EXAMPLES": as_json(list(examples())),
        "WORKER": script(web / "worker.js"),
        "CODEMIRROR": script(CODEMIRROR / "lib/codemirror.js", CODEMIRROR / "addon/comment/comment.js"),
        "EDITOR": script(web / "editor.js"),
        "STEPPER": script(web / "stepper.js"),
        "PAGE": script(web / "page.js"),
    }
    template = (web / "template.html").read_text()
    pathlib.Path(page).write_text(re.sub(r"@([A-Z_]+)@", lambda found: values[found[1]], template))


main()
