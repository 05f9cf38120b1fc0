# SPDX-License-Identifier: Apache-2.0 OR MIT
"""Where a long line of antt is broken: at the outermost place that leaves the first part not too short."""
from dataclasses import dataclass

# How much further to the right stands what goes on in the next line, until the kit's formatter lays it out.
FURTHER = 4
OPENING, CLOSING = set("([{⟦"), set(")]}⟧")
# Signs between two terms, before which a line is broken; at one depth the loosest is taken first.
LOOSE = {"→": 1, "↔": 2, "×": 2, "⊎": 2, "$": 3, "∵": 3, "∙": 3, "|": 1}
TIGHT = set("≡ ≢ < ≤ ⊑ + - * ^ / % ++ ∷ && || == ▸ ⊛".split())
# Before these, and behind those, no line is broken.
NEVER_BEFORE = CLOSING | set(", ; : = ↦ . in where as with".split())
NEVER_BEHIND = OPENING | set(LOOSE) | TIGHT | set("λ let elim record : as pub abbrev unfoldable data module ¬ ‵ ←".split())
APPLIED, BOUND = 4, 6
# What a break costs: by its depth; by how tightly the line holds together there; where much of the line stays empty, and what
# follows takes more than a line; before a plain argument; before the `=` of a clause.
DEEPER, TIGHTER, EMPTY, PLAIN, IN_HEAD = 2.5, 0.5, 7.0, 1.0, 12.0


@dataclass(frozen=True, slots=True)
class Place:
    """A place at which a line may be broken: before the token at this column."""

    column: int
    cost: float


def rank(before, token):
    """How tightly the line holds together here."""
    if before == "in":
        return 0
    if before in (",", ";", "↦"):
        return 1
    if before in (".", "="):
        return BOUND if before == "=" else 2
    if token in LOOSE:
        return LOOSE[token]
    return APPLIED + 1 if token in TIGHT else APPLIED


def binder_ends(tokens):
    """Which tokens stand between a λ and its dot."""
    inside, found, depth = False, set(), 0
    for at, token in enumerate(tokens):
        if inside:
            found.add(at)
            depth += (token.text in OPENING) - (token.text in CLOSING)
            inside = token.text != "." or depth > 0
        elif token.text == "λ":
            inside, depth = True, 0
    return found


def head_end(tokens):
    """The first `=` outside of brackets: a clause's head stands before it, or the name of a `let`. Nothing where there is none."""
    depth = 0
    for at, token in enumerate(tokens):
        depth += (token.text in OPENING) - (token.text in CLOSING)
        if token.text == "=" and depth <= 0:
            return at
    return 0


def cost(at, tokens, depth, head, room):
    """What it costs to break a line before this token, where so many columns are there for the first part and for what follows."""
    before, token = tokens[at - 1], tokens[at]
    tightness = 0 if head and at == head + 1 else rank(before.text, token.text)
    fits = tokens[-1].end - token.start <= room[1]
    empty = 0 if fits else ((room[0] - before.end) / room[0]) ** 2
    is_plain = tightness == APPLIED and token.text not in OPENING
    return DEEPER * depth + TIGHTER * tightness + EMPTY * empty + PLAIN * is_plain + IN_HEAD * (at < head)


def places(tokens, room):
    """Where a line may be broken."""
    depth, binders, head = 0, binder_ends(tokens), head_end(tokens)
    for at, (before, token) in enumerate(zip(tokens, tokens[1:]), 1):
        depth += (before.text in OPENING) - (before.text in CLOSING)
        is_kept = token.text in NEVER_BEFORE or before.text in NEVER_BEHIND or at in binders
        if token.start > before.end and not is_kept and before.end <= room[0]:
            yield Place(token.start, cost(at, tokens, depth, head, room))


def broken(line, tokens, most):
    """The line as two, or nothing where it can't be broken."""
    indent = len(line) - len(line.lstrip()) + FURTHER
    found = [place for place in places(tokens, (most, most - indent)) if place.column > indent]
    if not found:
        return None
    column = min(found, key=lambda place: (place.cost, -place.column)).column
    return [line[:column].rstrip(), " " * indent + line[column:]]
