"""The text of the page with the program in it: its template, style and scripts, which are in the folder `web`, the module, examples,
and the words of docs/MESSAGES.md and of the schema."""
from __future__ import annotations

import base64
import gzip
import hashlib
import json
import pathlib
import re
from collections.abc import Iterator
from typing import Any

TOP = pathlib.Path(__file__).resolve().parents[2]
WEB, PAGE = (pathlib.Path(__file__).resolve().parent / name for name in ("web", "page"))
WORKER = [WEB / "sercos.js", WEB / "worker.js"]
SCRIPTS = [PAGE / "shapes.js", *(WEB / f"{name}.js" for name in ("scanner", "edits", "waits", "refusals", "program", "share", "table", "text", "plan",
                                                                 "run", "check", "bits", "main"))]
STYLES = [PAGE / "colours.css", PAGE / "page.css", WEB / "web.css"]
# The first one is shown at the first visit.
EXAMPLES = {"lost_telegrams": "Lost telegrams", "one_drive": "One drive", "twelve_drives": "Twelve drives", "short_cycle": "No plan fits",
            "requests_and_faults": "Requests and faults", "many_drives": "Sixteen drives", "missed_rise": "A missed rise"}


def sources() -> list[pathlib.Path]:
    """The files that a page is made from, beside the module."""
    return [pathlib.Path(__file__), WEB / "web.html", *WORKER, *SCRIPTS, *STYLES, *(TOP / f"examples/{name}.toml" for name in EXAMPLES),
            *(TOP / name for name in ("docs/MESSAGES.md", "schema/ring.schema.json", "README.md", "VERSION"))]


def plain(words: str) -> str:
    """A text of a table without the marks of its code and links."""
    return re.sub(r"\[([^\]]*)\]\([^)]*\)", r"\1", words).replace("`", "").strip()


def rows(section: str) -> Iterator[list[str]]:
    """The rows of the tables of a section: the forms in code of the first cell, and the other cells."""
    text = (TOP / "docs/MESSAGES.md").read_text(encoding="utf-8")
    found = re.search(rf"(?ms)^##+ {re.escape(section)}$\n(.*?)(?=^##|\Z)", text)
    if not found:
        raise ValueError(f"docs/MESSAGES.md has no section {section!r}")
    for line in re.findall(r"(?m)^\| (`.*) \|$", found[1]):
        yield line.split(" | ")


def forms(cell: str) -> list[str]:
    return re.findall(r"`([^`]+)`", cell)


def divided(cell: str, count: int) -> list[str]:
    """What is said of each of some forms in one row: apart if the cell has as many parts, else of all the same."""
    for pattern in (r"; ", r", (?![^(]*\))(?!and )"):
        parts = re.split(pattern, cell)
        if len(parts) == count:
            return parts
    return [cell] * count


def messages() -> dict[str, Any]:
    """What each rule, refusal, fall and damage means, and what to look at first."""
    rules = {forms(row[0])[0].split(" ")[1]: {"begins": plain(row[1]), "shortens": plain(row[2])}
             for row in rows("Answers of `plan`") if forms(row[0])[0].startswith("rule ")}
    allowed = {form: words for row in rows("Values that aren't allowed")
               for form, words in zip(forms(row[0]), divided(plain(row[1]), len(forms(row[0]))))}
    checks = {forms(row[0])[0].split(" ")[4]: {"means": plain(row[1]), "look": plain(row[2])}
              for row in rows("Answers of `check`") if forms(row[0])[0].startswith("violation ")}
    frames = {" ".join(forms(row[0])[0].split(" ")[:2]): {"means": plain(row[1]), "look": plain(row[2])}
              for row in rows("Answers of `show`") if forms(row[0])[0].startswith(("error ", "layout "))}
    lines = [(form.split(" "), plain(row[1])) for row in rows("Lines of a trace") for form in forms(row[0])]
    return {"rules": rules, "allowed": allowed, "checks": checks, "frames": frames,
            "falls": {words[2]: text for words, text in lines if words[0] == "fall"},
            "stops": {words[2]: text for words, text in lines if words[0] == "stop"}}


def schema() -> dict[str, Any]:
    """The keys of each table: title, description, type."""
    whole = json.loads((TOP / "schema/ring.schema.json").read_text(encoding="utf-8"))
    tables = {"top": whole, **{name: whole["$defs"].get(name) or whole["properties"][name] for name in ("ring", "drive", "block", "request", "fault")}}

    def key(value: dict[str, Any]) -> dict[str, Any]:
        description = value.get("description", "").partition(" Beyond this schema")[0]
        if description.startswith("Beyond this schema"):
            description = ""
        return {"title": value.get("title", ""), "description": description, "type": value.get("type", "string")}
    return {name: {item: key(value) for item, value in table["properties"].items()} for name, table in tables.items()}


def in_script(text: str) -> str:
    """A text of JSON in which nothing ends the script that it is in."""
    return text.replace("<", "\\u003c")


def joined(files: list[pathlib.Path]) -> str:
    """Scripts or styles in one: those for programs also export, which a page has no use for."""
    text = "\n".join(file.read_text(encoding="utf-8") for file in files)
    text = re.sub(r'(?m)^if \(typeof module !== "undefined"\).*\n', "", text)
    if "</script" in text or "</style" in text:
        raise ValueError("a part of the page ends what it is in")
    return text


def page_text(module: bytes) -> str:
    """The whole page."""
    examples = [{"name": name, "text": (TOP / f"examples/{file}.toml").read_text(encoding="utf-8")} for file, name in EXAMPLES.items()]
    proved = re.search(r"proved with `([^`]+)`", (TOP / "README.md").read_text(encoding="utf-8"))
    values = {
        "style": joined(STYLES), "worker": joined(WORKER), "script": joined(SCRIPTS),
        "module": base64.b64encode(gzip.compress(module, 9, mtime=0)).decode(),
        "words": in_script(json.dumps({**messages(), "schema": schema(), "examples": examples})),
        "version": (TOP / "VERSION").read_text(encoding="utf-8").strip(),
        "logic": proved[1] if proved else "", "sum": hashlib.sha256(module).hexdigest(),
    }
    return re.sub(r"{{(\w+)}}", lambda field: values[field[1]], (WEB / "web.html").read_text(encoding="utf-8"))
