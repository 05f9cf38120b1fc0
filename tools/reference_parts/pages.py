# SPDX-License-Identifier: Apache-2.0 OR MIT
"""The reference as HTML: a page for each crate, one for C's functions, one for the words of clauses, and an index."""
import html
import re
import shutil
import time
from pathlib import Path

from . import requirements
from .repository import sentence
from .words import Reader

# What filters the list at the side.
FILTER = """
const box = document.querySelector("nav input");
box && box.addEventListener("input", () => {
  const wanted = box.value.toLowerCase();
  for (const link of document.querySelectorAll("nav a.to")) link.style.display = link.textContent.toLowerCase().includes(wanted) ? "" : "none";
});
"""


def escaped(text):
    return html.escape(text, quote=True)


def anchor(name):
    return re.sub(r"[^\w.~-]+", "-", name)


def code(text):
    return f"<code>{escaped(text)}</code>"


def spans_of_c(text):
    """A comment of C with its names as code spans."""
    return re.sub(r"\b(?:iox2ps|IOX2PS)_\w+", r"`\g<0>`", text)


def inline(text):
    """A line of a comment, with its code spans."""
    parts = re.split(r"(`+)(.+?)\1", text)
    found = [escaped(parts[0])]
    for at in range(1, len(parts), 3):
        found.append(code(parts[at + 1]) + escaped(parts[at + 2]))
    return re.sub(r"\[([^\]]+)\]\([^)]*\)|\[(<code>[^\]]+</code>)\]", lambda match: match[1] or match[2], "".join(found))


def comment(text):
    """A comment as paragraphs, lists and blocks of code."""
    found, block = [], None
    for part in re.split(r"(^```[^\n]*\n.*?^```[^\n]*$)", text, flags=re.M | re.S):
        if part.startswith("```"):
            block = part.split("\n", 1)[1].rsplit("\n", 1)[0]
            found.append(f"<pre><code>{escaped(block)}</code></pre>")
            continue
        for paragraph in re.split(r"\n\s*\n", part.strip()):
            if re.match(r"\s*[-*] ", paragraph):
                items = re.split(r"^\s*[-*] ", paragraph, flags=re.M)[1:]
                found.append("<ul>" + "".join(f"<li>{inline(sentence(item))}</li>" for item in items) + "</ul>")
            elif paragraph.startswith("#"):
                found.append(f"<p><strong>{inline(sentence(paragraph.lstrip('#')))}</strong></p>")
            elif paragraph:
                found.append(f"<p>{inline(sentence(paragraph))}</p>")
    return "\n".join(found)


class Pages:
    """Writes the folder."""

    def __init__(self, model, to, beside=()):
        self.model, self.to, self.beside = model, to, beside
        self.places = {
            entry.name: f"{crate}.html#{anchor(entry.name)}" for crate, entries in model.entries.items() for entry in self.within(entries)
        }
        self.named = set()

    @staticmethod
    def within(entries):
        for entry in entries:
            yield entry
            yield from entry.entries

    # ---- parts of pages

    def words(self, text):
        """A clause or a definition, with a link at each word that is defined, and none at those that it binds itself."""
        found = []
        bound = " ".join([*re.findall(r"λ ([^.]*)\.", text), *re.findall(r"[({]([^(){}:]*) :", text)]).split()
        for part in re.split(r"([^\s(){}\[\];,:→×≡≢⊎λ∷↔≤<⊥⊤]+)", text):
            word = part.rsplit(".", 1)[-1]
            if part in bound:
                found.append(escaped(part))
            elif part in self.model.definitions or ("." in part and word in self.model.definitions and word[:1].isupper()):
                word = part if part in self.model.definitions else word
                self.named.add(word)
                found.append(f'<a href="words.html#{anchor(word)}">{escaped(part)}</a>')
            else:
                found.append(escaped(part))
        return "".join(found)

    def link(self, name):
        return f'<a href="{self.places[name]}">{code(name)}</a>' if name in self.places else code(name)

    def clauses(self, clauses):
        if not clauses:
            return "<p class=soft>It has no contract: it asks for nothing and promises nothing but to end.</p>"
        rows = "".join(
            f"<tr><td class=name>{clause.kind}</td><td class=name>{code(clause.name) if clause.name else ''}</td>"
            f"<td><code>{self.words(sentence(clause.text))}</code></td></tr>"
            for clause in clauses
        )
        return f"<table><tr><th>Clause</th><th>Name</th><th>What it says</th></tr>{rows}</table>"

    @staticmethod
    def place(item):
        return f"<p class=soft>{escaped(item.file)}, line {item.line}</p>"

    def names(self, entry):
        """Its names in other languages."""
        exports = self.model.counterparts.get(entry.name, [])
        if not exports:
            return ""
        of_cpp = list(dict.fromkeys(name for export in exports for name in self.model.cpp[export]))
        of_rust = list(dict.fromkeys(name for export in exports for name in self.model.rust[export]))
        rows = [
            ("C", ", ".join(f'<a href="c.html#{export}">{code(export)}</a>' for export in exports)),
            ("C++", ", ".join(map(code, of_cpp))),
            ("Rust", ", ".join(map(code, of_rust))),
        ]
        return "<table>" + "".join(f"<tr><th>{language}</th><td>{names}</td></tr>" for language, names in rows if names) + "</table>"

    def evidence(self, entry):
        """Its tests and mutants."""
        parts = []
        if entry.tests:
            tests = "".join(f"<li>{code(test.name)}</li>" for test in entry.tests)
            parts.append(f"<details><summary>Tests and programs that call it: {len(entry.tests)}</summary><ul>{tests}</ul></details>")
        elif entry.callers:
            parts.append(
                "<p class=soft>No test calls it; tested calls that do: "
                + ", ".join(self.link(caller.name) for caller in entry.callers)
                + "</p>"
            )
        else:
            parts.append("<p class=soft>No test calls it.</p>")
        if entry.mutants:
            mutants = requirements.mutants_table(entry.mutants)
            parts.append(f"<details><summary>Mutants of what it calls: {len(entry.mutants)}</summary>{mutants}</details>")
        return "".join(parts)

    def call(self, entry):
        level = 3 if entry.parent else 2
        return (
            f'<h{level} id="{anchor(entry.name)}">{escaped(entry.name)}</h{level}><pre><code>{escaped(dedented(entry.item.signature))}</code></pre>'
            f"{comment(entry.text)}{self.clauses(entry.clauses)}{self.names(entry)}{self.evidence(entry)}{self.place(entry.item)}"
        )

    def type(self, entry):
        item = entry.item
        rows = ""
        for name, member, doc, is_public in item.members:
            if isinstance(member, Reader):
                if is_public and not name.isdigit():
                    rows += f"<tr><td class=name>{code(name)}</td><td>{inline(sentence(doc))}</td></tr>"
            else:
                fields = ", ".join(field for field, *_ in member.members if not field.isdigit())
                rows += f"<tr><td class=name>{code(name)}</td><td>{inline(sentence(doc))}{' Fields: ' + escaped(fields) if fields else ''}</td></tr>"
        table = f"<table><tr><th>{'Variant' if item.kind == 'enum' else 'Field'}</th><th>What it is</th></tr>{rows}</table>" if rows else ""
        of = "" if item.file.startswith(f"crates/{entry.crate}/") else f"<p class=soft>Passed on from {code(item.file.split('/')[1])}</p>"
        calls = "".join(self.call(one) for one in entry.entries)
        return f'<h2 id="{anchor(entry.name)}">{escaped(item.kind)} {escaped(entry.name)}</h2>{comment(entry.text)}{of}{table}{self.place(item)}{calls}'

    def function_of_c(self, function):
        made = self.model.steps_of(function.name)
        others = [entry for entry in self.model.c_calls[function.name] if entry not in made]
        rows = [
            ("Calls", ", ".join(self.link(entry.name) for entry in made)),
            ("Calls too", ", ".join(self.link(entry.name) for entry in others)),
            ("C++", ", ".join(map(code, self.model.cpp[function.name]))),
            ("Rust", ", ".join(map(code, self.model.rust[function.name]))),
            ("Tested by", ", ".join(map(code, self.model.programs[function.name]))),
        ]
        table = "<table>" + "".join(f"<tr><th>{what}</th><td>{names}</td></tr>" for what, names in rows if names) + "</table>"
        contract = (
            self.clauses(function.item.clauses) + self.place(function.item)
            if function.item
            else "<p class=soft>It is not an export of the proved crate.</p>"
        )
        return f'<h3 id="{function.name}">{function.name}</h3><pre><code>{escaped(function.signature)}</code></pre>{comment(spans_of_c(function.doc))}{contract}{table}'

    # ---- pages

    def write(self):
        self.to.mkdir(parents=True, exist_ok=True)
        shutil.copyfile(Path(__file__).with_name("style.css"), self.to / "style.css")
        for crate, entries in self.model.entries.items():
            body = "".join(self.call(entry) if entry.is_call else self.type(entry) for entry in entries)
            links = "".join(
                f'<a class="to{" call" if entry.parent else ""}" href="#{anchor(entry.name)}">{escaped(entry.name)}</a>'
                for entry in self.within(entries)
            )
            self.page(f"{crate}.html", crate, f"<h1>{crate}</h1>{body}", links)
        body = "<h1>Functions of C</h1>" + "".join(map(self.function_of_c, self.model.c_functions))
        self.page("c.html", "C", body, "".join(f'<a class=to href="#{one.name}">{one.name}</a>' for one in self.model.c_functions))
        self.page("requirements.html", "Requirements", *requirements.html(self.model, self.link))
        self.write_words()
        self.write_index()

    def write_words(self):
        """The definitions that clauses name, and those that these name."""
        done, left, body = {}, sorted(self.named), {}
        while left:
            word = left.pop()
            if word in done:
                continue
            done[word] = self.model.definitions[word]
            before = set(self.named)
            body[word] = "".join(
                f"<p>{inline(one.comment)}</p><pre><code>{self.words(one.text)}</code></pre><p class=soft>{escaped(one.file)}, line {one.line}</p>"
                for one in done[word]
            )
            left.extend(sorted(self.named - before))
        text = "<h1>The words of clauses</h1><p>Each word that a clause here names, and those that these definitions name. A word that crates define each for themselves has all its definitions.</p>"
        text += "".join(f'<h3 id="{anchor(word)}">{escaped(word)}</h3>{body[word]}' for word in sorted(body, key=str.lower))
        self.page(
            "words.html",
            "Words",
            text,
            "".join(f'<a class=to href="#{anchor(word)}">{escaped(word)}</a>' for word in sorted(body, key=str.lower)),
        )
        self.count_of_words = len(body)

    def write_index(self):
        rows = []
        for crate, entries in self.model.entries.items():
            calls = sum(entry.is_call for entry in self.within(entries))
            rows.append((f"{crate}.html", crate, f"{len(entries)} items, {calls} calls"))
        rows.append(("c.html", "Functions of C", f"{len(self.model.c_functions)} functions, with the calls of the library that they make"))
        rows.append(("words.html", "The words of clauses", f"{self.count_of_words} definitions"))
        rows.append(("requirements.html", "Requirements", "with the clauses, tests and mutants of each"))
        rows += self.beside
        table = "".join(
            f'<tr><td class=name><a href="{path}">{escaped(title)}</a></td><td>{escaped(what)}</td></tr>' for path, title, what in rows
        )
        everything = "".join(
            f'<a class="to{" call" if entry.parent else ""}" href="{self.places[entry.name]}">{escaped(entry.name)}</a>'
            for entry in self.model.all()
        )
        body = (
            f"<h1>iox2_pubsub: the reference</h1><p>Made from the sources: the text of each public item, its contract, its original in iceoryx2, its names in C, C++ and Rust, "
            f"the tests that call it, and the mutants of what it calls. {time.strftime('%Y-%m-%d')}.</p><table>{table}</table>"
            "<p>A clause <code>requires</code> says what a caller owes, and <code>ensures</code> what holds afterwards; <code>.old</code> is a value before the call and <code>.new</code> after it. "
            "All are proved. A test or a mutant is listed by what calls what, as far as the types in the sources say it.</p>"
        )
        self.page("index.html", "Reference", body, everything)

    def page(self, name, title, body, links):
        top = '<a href="index.html"><strong>Reference</strong></a><p><input placeholder="filter" aria-label="filter"></p>'
        (self.to / name).write_text(
            f'<!doctype html><html lang=en><meta charset=utf-8><meta name=viewport content="width=device-width"><title>{title} - iox2_pubsub</title>'
            f'<link rel=stylesheet href=style.css><nav>{top}{links}</nav><main>{body}</main><script>{FILTER}</script></html>\n'
        )


def dedented(text):
    """A signature without the indentation of its impl."""
    lines = text.split("\n")
    indents = [len(line) - len(line.lstrip()) for line in lines[1:] if line.strip()]
    least = min(indents, default=0) if lines[-1].strip().startswith(")") or indents else 0
    return "\n".join([lines[0], *(line[min(least, len(line) - len(line.lstrip())) :] for line in lines[1:])])
