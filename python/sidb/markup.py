"""HTML out of elements: text is always escaped, so that a name in a layout's file shows as text and is never markup."""

from __future__ import annotations

import base64
import html
from collections.abc import Iterable, Sequence

#: Elements without content.
_EMPTY = frozenset({"br", "img", "meta"})


class Markup(str):
    """A text that is HTML. Made by ``element`` alone."""


def shown(text: object) -> str:
    """A text as a page may show it: characters that are not printable, such as marks that turn the direction of
    writing, are replaced."""
    return "".join(sign if sign.isprintable() or sign == "\n" else "\N{REPLACEMENT CHARACTER}" for sign in str(text))


def element(kind: str, *inner: object, **attributes: object) -> Markup:
    """An element. ``inner``: other elements, or values that are shown as text; None is left out. An attribute's name
    may end with an underscore, as ``class_``."""
    pairs = ((key.rstrip("_").replace("_", "-"), value) for key, value in attributes.items() if value is not None)
    said = "".join(f' {key}="{html.escape(shown(value))}"' for key, value in pairs)
    if kind in _EMPTY:
        return Markup(f"<{kind}{said}>")
    return Markup(f"<{kind}{said}>{joined(inner)}</{kind}>")


def joined(parts: Iterable[object]) -> Markup:
    """Elements, or values that are shown as text, one behind another."""
    return Markup("".join(part if isinstance(part, Markup) else html.escape(shown(part)) for part in parts if part is not None))


def table(head: Sequence[object], rows: Iterable[Sequence[object]], **attributes: object) -> Markup:
    """A table with a head."""
    top = element("thead", element("tr", *(element("th", cell, scope="col") for cell in head)))
    body = element("tbody", *(element("tr", *(element("td", cell) for cell in row)) for row in rows))
    return element("table", top, body, **attributes)


def picture(svg: str, alt: str, **attributes: object) -> Markup:
    """An image that holds its SVG: nothing in it can run, and its names touch no other's."""
    data = base64.b64encode(svg.encode()).decode()
    return element("img", src=f"data:image/svg+xml;base64,{data}", alt=alt, **attributes)


def page(title: object, style: str, *body: object) -> str:
    """A whole page, which may load nothing and run nothing."""
    policy = "default-src 'none'; img-src data:; style-src 'unsafe-inline'"
    head = element(
        "head",
        element("meta", charset="utf-8"),
        element("meta", http_equiv="Content-Security-Policy", content=policy),
        element("meta", name="viewport", content="width=device-width"),
        element("title", title),
        element("style", Markup(style)),
    )
    return "<!DOCTYPE html>\n" + element("html", head, element("body", *body), lang="en") + "\n"
