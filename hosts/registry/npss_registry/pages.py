"""The registry's pages for people: plain HTML without scripts."""

import unicodedata
from collections.abc import Sequence
from html import escape
from typing import Optional

from npss_registry.explaining import MOST_ROWS, Row, Side, Verdict, hex_of
from npss_registry.overview import Overview, ShardState
from npss_registry.records import Setup
from npss_registry.store import Registration

STYLE = """
:root { color-scheme: light dark; }
body { font: 16px/1.5 system-ui, sans-serif; max-width: 60rem; margin: 2rem auto; padding: 0 1rem; background: Canvas; color: CanvasText; }
.wide { overflow-x: auto; } table { border-collapse: collapse; margin: .5rem 0 1.5rem; }
td, th { border: 1px solid GrayText; padding: .2rem .6rem; text-align: left; }
label { display: inline-block; margin: 0 1rem .5rem 0; } label input { display: block; }
input[type=text] { font: inherit; padding: .2rem .4rem; width: 18rem; max-width: 90vw; box-sizing: border-box; } button { font: inherit; }
.yes { color: #060; color: light-dark(#060, #7d7); } .no { color: #a00; color: light-dark(#a00, #f88); } mark { background: #fd6; color: #000; }
.code { font-family: monospace; unicode-bidi: isolate; direction: ltr; } bdi { overflow-wrap: anywhere; } bdi .code { white-space: nowrap; }
"""
_NOTE = "Names that only look alike are not judged here: letters of two scripts, {}a digit for a letter are different names.{}"


def _note(caseless: bool) -> str:
    """What isn't judged."""
    return _NOTE.format("", " Capitals and small letters are one.") if caseless else _NOTE.format("capitals and small letters, ", "")


# So many characters of a text are shown.
MOST_SHOWN = 1000
# What turns the direction of a text, beside what is no sign at all.
_TURNS = ("LRE", "RLE", "LRO", "RLO", "PDF", "LRI", "RLI", "FSI", "PDI")


def page(title: str, *parts: str, home: bool = False) -> str:
    """A whole page."""
    back = "" if home else '\n<p><a href="/">Search and status</a></p>'
    return (f'<!DOCTYPE html>\n<html lang="en"><head><meta charset="utf-8"><meta name="viewport" content="width=device-width, initial-scale=1">'
            f'<title>{escape(title)}</title><style>{STYLE}</style></head>\n<body><h1>{escape(title)}</h1>\n{"".join(parts)}{back}</body></html>\n')


def table(heads: Sequence[str], rows: Sequence[Sequence[str]]) -> str:
    """A table; its cells are HTML already."""
    head = "".join(f"<th>{escape(word)}</th>" for word in heads)
    body = "".join("<tr>" + "".join(f"<td>{cell}</td>" for cell in row) + "</tr>\n" for row in rows)
    return f'<div class="wide"><table><tr>{head}</tr>\n{body}</table></div>\n'


def shown(text: str) -> str:
    """A text of somebody else, which keeps its direction to itself; what can't be seen in it, or turns directions, is spelled out."""
    marked = "".join(escape(one) if _is_plain(one) else f'<span class="code">[{hex_of(ord(one))}]</span>' for one in text[:MOST_SHOWN])
    return f"<bdi>{marked}</bdi>" + (" .." if len(text) > MOST_SHOWN else "")


def _is_plain(one: str) -> bool:
    return unicodedata.category(one) not in ("Cc", "Zl", "Zp", "Cs") and unicodedata.bidirectional(one) not in _TURNS


def _field(name: str, label: str, value: str = "") -> str:
    return f'<label>{label} <input type="text" dir="auto" name="{name}" value="{escape(value)}"></label>'


def home(overview: Overview) -> str:
    """The search, the question why, and how far this node has read."""
    status = table(("shard", "read to place", "last place", "behind", "registered", "parked"),
                   [(str(row.shard), str(row.place), "unknown" if row.last is None else str(row.last), _lag(row), str(row.registered),
                     str(row.parked)) for row in overview.shards])
    return page(
        "Registry of names",
        f'<h2>Who has a name?</h2><form method="post" action="/search">{_field("name", "Name")}<button>Search</button></form>',
        f'<h2>Are two names the same?</h2><form method="post" action="/why">{_field("left", "One")}{_field("right", "Other")}'
        f"<button>Compare</button></form><p>{_note(overview.caseless)}</p>",
        f"<h2>This node</h2><p>Node <span class=code>{escape(overview.node)}</span>, {'caseless, ' if overview.caseless else ''}form "
        f"{escape(overview.form.upper())}; its version of Unicode assigns {overview.assigned} code points. A parked name has a code point that this "
        f"version lacks: it is registered, and is taken after an upgrade.</p>{_log(overview)}{status}{_parked(overview)}", home=True)


def _log(overview: Overview) -> str:
    """Whether the log is there, and how old its news is."""
    age = "" if overview.age is None else f" The log told its last places {overview.age:.0f} s ago."
    if overview.log_away is not None:
        return f'<p class="no">The log is away, so no name can be claimed: {shown(overview.log_away)}.{age}</p>'
    if not overview.claims:
        return f'<p class="no">No name can be claimed at the moment.{age}</p>'
    return f'<p class="yes">Names can be looked up and claimed.{age}</p>'


def _lag(row: ShardState) -> str:
    if row.behind is None:
        return '<span class="no">unknown</span>'
    return f'<span class="no">{row.behind}</span>' if row.behind else '<span class="yes">no</span>'


def _parked(overview: Overview) -> str:
    """The first of the parked names, with their code points: no font has yet what is parked."""
    return f"<h2>Parked</h2>{table(('name', 'code points'), [(shown(name), _codes(name)) for _, name in overview.parked])}" if overview.parked else ""


def search(name: str, found: Sequence[Registration], refusal: str = "") -> str:
    """Who has a name, or an equivalent one."""
    if refusal:
        answer = f'<p class="no">This node can\'t look it up: {escape(refusal)}.</p>'
    elif not found:
        answer = "<p>Nobody has it.</p>"
    else:
        answer = table(("name", "code points", "owner", "place", "parked"),
                       [(shown(one.string), _codes(one.string), shown(one.owner), str(one.place), "yes" if one.parked else "no") for one in found])
    form = f'<form method="post" action="/search">{_field("name", "Name", name)}<button>Search</button></form>'
    return page("Who has this name?", form, answer)


def _codes(text: str, marked: Optional[int] = None) -> str:
    """The code points of a text, up to a limit, one of them marked."""
    codes = [hex_of(ord(one)) for one in text[:MOST_ROWS]]
    if marked is not None and marked < len(codes):
        codes[marked] = f"<mark>{codes[marked]}</mark>"
    return f'<span class="code">{" ".join(codes)}{" .." if len(text) > MOST_ROWS else ""}</span>'


def why(setup: Setup, verdict: Verdict) -> str:
    """Why two names are the same or not."""
    caseless = setup.caseless
    fields = _field("left", "One", verdict.left.text) + _field("right", "Other", verdict.right.text)
    again = f'<form method="post" action="/why">{fields}<button>Compare</button></form>'
    return page("Are these names the same?", again, f"<p>{_verdict(setup, verdict)}</p>", _side("One", verdict.left, verdict.place, caseless),
                _side("Other", verdict.right, verdict.place, caseless), f"<p>{_note(caseless)}</p>")


def _verdict(setup: Setup, verdict: Verdict) -> str:
    keys = f"their {'caseless ' if setup.caseless else ''}keys under {escape(setup.form.upper())}"
    if verdict.same is None:
        return '<strong class="no">That can\'t be told</strong>: a code point is not assigned in this node\'s version of Unicode.'
    if verdict.same:
        return f'<strong class="yes">The same name</strong>: {keys} are equal.'
    return f'<strong class="no">Two names</strong>: {keys} differ first at code point {(verdict.place or 0) + 1}.'


def _side(title: str, one: Side, place: Optional[int], caseless: bool) -> str:
    rows = [(*_row(row), *([f'<span class="code">{row.folding}</span>'] if caseless else [])) for row in one.rows]
    more = f"<p>These are its first {MOST_ROWS} code points of {len(one.text)}.</p>" if len(one.text) > len(rows) else ""
    if one.key is None:
        key = f'<span class="no">none: {escape(str(one.refusal))}</span>'
    else:
        key = f"{shown(one.key)} {_codes(one.key, place)}"
    heads = ("code point", "name", "class", "mapping", "full decomposition", *(["folding"] if caseless else []))
    return f"<h2>{title}: {shown(one.text)}</h2>{table(heads, rows)}{more}<p>{'Caseless key' if caseless else 'Key'}: {key}</p>"


def _row(row: Row) -> tuple[str, ...]:
    name = escape(row.name) if row.assigned else '<span class="no">not assigned</span>'
    return (f'<span class="code">{hex_of(row.code)}</span>', name, str(row.combining_class), row.mapping or "",
            f'<span class="code">{row.decomposition}</span>')
