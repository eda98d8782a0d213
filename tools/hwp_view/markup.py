"""Small pieces of HTML. Every text goes through `esc`."""
from __future__ import annotations

import unicodedata
from html import escape
from typing import Iterable, Optional

from .report import Line

SHAPES = {"failure": "▲", "refusal": "◇", "signal": "◆", "stop": "■", "offline": "●", "event": "△", "wait": "◌"}
WORDS = {
    "failure": "failure",
    "refusal": "refused",
    "signal": "signal",
    "stop": "stop",
    "offline": "taken out",
    "event": "event",
    "wait": "waited",
}


def esc(text: object) -> str:
    """A text as HTML, in texts and in attributes. What has no shape of its own, or turns the writing, is replaced."""
    plain = str(text)
    if not plain.replace("\n", "").isprintable():
        plain = "".join(c if c == "\n" or unicodedata.category(c)[0] != "C" else "\ufffd" for c in plain)
    return escape(plain, quote=True)


def badge(kind: str, word: Optional[str] = None) -> str:
    """A shape and a word in the colour of a kind; nothing for what is fine."""
    if kind == "fine":
        return ""
    return f'<span class="badge {kind}"><i aria-hidden="true">{SHAPES[kind]}</i> {esc(word or WORDS[kind])}</span> '


def tie(target: str, text: str, hint: str = "", kind: str = "") -> str:
    """A link to what belongs to an item. The hint is for those who hear the page."""
    heard = f'<span class="heard">{esc(hint)} </span>' if hint else ""
    classes = f"tie {kind}" if kind else "tie"
    return f'<a class="{classes}" tabindex="-1" href="#{target}">{heard}{esc(text)}</a>'


def sources(lines: Iterable[Line]) -> str:
    """Lines of the report for the pane, each with its number."""
    return "\n".join(f"{line.number} {line.text}" for line in lines)


def item(
    name: str,
    kind: str,
    classes: str,
    body: str,
    *,
    script: str = "",
    report: str = "",
    trace: str = "",
    says: str = "",
    rows: str = "",
) -> str:
    """An item of the run: it takes the focus, and carries its lines of the script, the report and the trace."""
    attributes = [f'id="{name}"', f'class="it {classes} {kind}"', 'tabindex="-1"']
    for key, text in (("data-s", script), ("data-r", report), ("data-t", trace), ("data-g", says)):
        if text:
            attributes.append(f'{key}="{esc(text)}"')
    if rows:
        attributes.append(f'style="{rows}"')
    return f"<li {' '.join(attributes)}>{body}</li>\n"


def plural(number: int, one: str, many: str = "") -> str:
    """A number with its noun."""
    return f"{number:,} {one if number == 1 else many or one + 's'}"
