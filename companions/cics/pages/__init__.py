"""What the pages share that companions make: how one is put together of its parts, without anything from elsewhere; its colours, and the beginning
of its style and of its script.

No text of a user becomes markup. Data is JSON without `<`; other text goes through `markup`, which escapes it. A page's policy names its own
style and script by their hashes, so that a browser runs nothing else in it.
"""
import base64
import hashlib
import json
import os
import re
from collections.abc import Mapping
from html import escape

from cics.child import decoded, encoded
from cics.files import page_mark, read_own

SHARED = os.path.dirname(os.path.abspath(__file__))
DOCTYPE = "<!DOCTYPE html>\n"  # the first line of a page.html, in whose place a page has its mark
PLACE = re.compile(r"/\*([A-Z_]+)\*/")  # in a page.html, where a part goes


class Markup(str):
    """Text that is markup, and so isn't escaped."""


def markup(form: str, *texts: object) -> Markup:
    """Markup of a form, at each {} of which a text stands: escaped, unless it is markup."""
    return Markup(form.format(*(text if isinstance(text, Markup) else escape(str(text)) for text in texts)))


def joined(parts: list[Markup], between: str = "") -> Markup:
    return Markup(between.join(parts))


def part(folder: str, name: str) -> str:
    return read_own(os.path.join(folder, name))


def json_of(data: object) -> Markup:
    """JSON of ASCII characters alone, without `<`: so nothing in it is markup."""
    return Markup(json.dumps(data, separators=(",", ":"), ensure_ascii=True).replace("<", "\\u003c"))


def hash_of(text: str) -> str:
    """The hash of a style or a script, as a policy names it."""
    return f"sha256-{base64.b64encode(hashlib.sha256(text.encode()).digest()).decode()}"


def assembled(maker: str, folder: str, parts: Mapping[str, Markup], *, has_common: bool = True) -> str:
    """The page of a folder, which has page.html, page.css and page.js, with these parts put in; perhaps without the script that pages share.
    Its first line names its maker, and has the sum of the rest."""
    style = part(SHARED, "colours.css") + part(SHARED, "common.css") + part(folder, "page.css")
    script = (part(SHARED, "common.js") if has_common else "") + part(folder, "page.js")
    texts: Mapping[str, str] = {"STYLE": style, "SCRIPT": script, "STYLE_HASH": hash_of(style), "SCRIPT_HASH": hash_of(script), **parts}
    page = PLACE.sub(lambda place: texts[place[1]], part(folder, "page.html").removeprefix(DOCTYPE))
    return decoded(page_mark(maker).marked(encoded(page)))
