"""The manual: one page of HTML made of the repository's pages, for the Markdown that they use.

A page consists of headings, paragraphs, lists, tables, fenced code and comments. Within a line there are code, bold and
emphasised words, links and pictures. A line of another form is a failure. A link to a page leads to its place in the manual,
and so does a mention such as docs/FORMATS.md, "Objects". Of a link to another file only the text is left.
"""
import base64
import html as escapes
import os
import re
from collections import namedtuple

from checkout import TOP, Failure, files, read, version

# The pages that come first, in the order in which README lists them for those who use the program.
FIRST = ("README.md", "docs/RELEASES.md", "docs/CAMPAIGNS.md", "docs/EXERCISES.md", "docs/EXERCISES-ANSWERS.md", "docs/SURVEYS.md",
         "docs/SANDBOX.md", "docs/SANDBOX-C.md", "docs/EMBEDDING.md", "docs/FORMATS.md", "docs/PERFORMANCE.md", "docs/TRUSTED.md")
STYLE = """
:root { color-scheme: light dark; }
body { margin: 0 auto; max-width: 52rem; padding: 1rem; font: 1rem/1.5 sans-serif; }
section { border-top: 2px solid; margin-top: 3rem; }
h1, h2, h3, h4 { line-height: 1.2; }
pre, .table { overflow-x: auto; }
pre { padding: .6rem; border: 1px solid #8888; }
code { font-family: monospace; overflow-wrap: anywhere; }
pre code { overflow-wrap: normal; }
table { border-collapse: collapse; }
th, td { border: 1px solid #8888; padding: .2rem .5rem; text-align: left; vertical-align: top; }
img { max-width: 100%; }
@media print { section { break-before: page; border: 0; } }
"""
# The beginnings of lines that Markdown reads and this script does not.
UNREAD = re.compile(r">|\t| {4}|\[[^\]]*\]: |[=-]{3,}$|[*+] |<(?!!--)|~~~")
ITEM = re.compile(r"(?P<indent> *)(?P<mark>-|\d+\.) (?P<text>.*)")
INLINE = re.compile(
    r"(?P<ticks>`+)(?P<code>.+?)(?P=ticks)(?!`)"
    r"|!\[(?P<words>[^\]]*)\]\((?P<picture>[^)]+)\)"
    r"|\[(?P<link>(?:`[^`]*`|[^\]`])+)\]\((?P<target>[^)]+)\)"
    r"|\*\*(?P<bold>.+?)\*\*"
    r"|\*(?P<emphasis>\w(?:[^*]*\w)?)\*"
    r'|\b(?P<page>(?:docs/|examples/)?[A-Z][A-Z-]*\.md)\b(?:, "(?P<part>[^"]+)")?'
)
Heading = namedtuple("Heading", "level text place")


def pages():
    """Returns the names of the pages in the manual's order."""
    found = files(":(glob)*.md", ":(glob)docs/*.md", ":(glob)examples/**/README.md")
    return [name for name in FIRST if name in found] + [name for name in found if name not in FIRST]


def place(*words):
    """Returns the name of a place in the manual, of these words."""
    return "-".join(re.sub(r"[^a-z0-9]+", "-", word.lower()).strip("-") for word in words)


def without_code(text):
    return re.sub(r"^```.*?^```", "", text, flags=re.S | re.M)


class Manual:
    """The pages by name, with the headings of each."""

    def __init__(self):
        self.headings = {page: self.found_in(page) for page in pages()}

    def found_in(self, page):
        """Returns the headings of a page. The first is its title, whose place is the page's."""
        found, taken = [], set()
        for marks, text in re.findall(r"^(#+) (.*)", without_code(read(page)), re.M):
            name = place(page[: -len(".md")], text) if found else place(page[: -len(".md")])
            while name in taken:
                name += "-again"
            taken.add(name)
            found.append(Heading(len(marks), text, name))
        return found

    # ---- within a line

    def inline(self, page, text, is_linked=False):
        """Returns the HTML of a text without blocks. Within a link, mentions of pages are plain text."""
        parts, at = [], 0
        for found in INLINE.finditer(text):
            parts += [escapes.escape(text[at : found.start()], quote=False), self.span(page, found, is_linked)]
            at = found.end()
        return "".join(parts) + escapes.escape(text[at:], quote=False)

    def span(self, page, found, is_linked):
        if found["code"]:
            code = found["code"]
            code = code[1:-1] if re.fullmatch(r" .*\S.* ", code) else code
            return f"<code>{escapes.escape(code, quote=False)}</code>"
        if found["picture"]:
            return self.picture(page, found["picture"], found["words"])
        if found["bold"]:
            return f"<strong>{self.inline(page, found['bold'], is_linked)}</strong>"
        if found["emphasis"]:
            return f"<em>{self.inline(page, found['emphasis'], is_linked)}</em>"
        if found["link"]:
            return self.link(page, found["target"], self.inline(page, found["link"], True))
        shown = escapes.escape(found[0], quote=False)
        return shown if is_linked else self.mention(found["page"], found["part"], shown)

    def picture(self, page, target, words):
        path = os.path.join(TOP, os.path.dirname(page), target)
        if not path.endswith(".svg"):
            raise Failure(f"{page}: the manual has only pictures in SVG, and not {target}")
        with open(path, "rb") as file:
            data = base64.b64encode(file.read()).decode("ascii")
        return f'<img alt="{escapes.escape(words)}" src="data:image/svg+xml;base64,{data}">'

    def link(self, page, target, shown):
        if re.match(r"https?://", target):
            return f'<a href="{escapes.escape(target)}">{shown}</a>'
        name = os.path.normpath(os.path.join(os.path.dirname(page), target))
        return f'<a href="#{self.headings[name][0].place}">{shown}</a>' if name in self.headings else shown

    def mention(self, name, part, shown):
        """Returns a mention of a page, or of a part of it, as a link if there is such a page."""
        name = next((each for each in (name, f"docs/{name}") if each in self.headings), None)
        if not name:
            return shown
        first, *others = self.headings[name]
        found = next((each for each in others if part and each.text.startswith(part)), first)
        return f'<a href="#{found.place}">{shown}</a>'

    # ---- blocks: each function takes the lines and where its block begins, and returns its HTML and where it ends

    def code(self, page, lines, at):
        end = next((end for end in range(at + 1, len(lines)) if lines[end].strip() == "```"), None)
        if end is None:
            raise Failure(f"{page}:{at + 1}: the code has no end")
        text = "".join(f"{line}\n" for line in lines[at + 1 : end])
        return f"<pre><code>{escapes.escape(text, quote=False)}</code></pre>", end + 1

    def table(self, page, lines, at):
        end = next(end for end in range(at, len(lines)) if not lines[end].startswith("|"))
        rows = [[cell.strip().replace("\\|", "|") for cell in re.split(r"(?<!\\)\|", line)[1:-1]] for line in lines[at:end]]
        if len(rows) < 2 or not all(re.fullmatch(r":?-+:?", cell) for cell in rows[1]):
            raise Failure(f"{page}:{at + 1}: the table has no line of hyphens below its head")
        text = ["<tr>" + "".join(f"<th>{self.inline(page, cell)}</th>" for cell in rows[0]) + "</tr>"]
        text += ["<tr>" + "".join(f"<td>{self.inline(page, cell)}</td>" for cell in row) + "</tr>" for row in rows[2:]]
        return '<div class="table"><table>\n' + "\n".join(text) + "\n</table></div>", end

    def list(self, page, lines, at):
        """A list, with the lists in its items: those that are further to the right."""
        first = ITEM.match(lines[at])
        kind, items = ("ul" if first["mark"] == "-" else "ol"), []
        while at < len(lines) and ITEM.match(lines[at]):
            item = ITEM.match(lines[at])
            if len(item["indent"]) < len(first["indent"]):
                break
            if len(item["indent"]) > len(first["indent"]):
                inner, at = self.list(page, lines, at)
                items[-1] += f"\n{inner}"
            else:
                items.append(self.inline(page, item["text"]))
                at += 1
        return f"<{kind}>\n" + "".join(f"<li>{item}</li>\n" for item in items) + f"</{kind}>", at

    def paragraph(self, page, lines, at):
        end = at
        while lines[end] and not re.match(r"```|\||#+ |<!--", lines[end]) and not ITEM.match(lines[end]) and not UNREAD.match(lines[end]):
            end += 1
        if end == at or UNREAD.match(lines[end]):
            raise Failure(f"{page}:{end + 1}: share/packaging/manual.py does not read this form of Markdown: {lines[end][:60]}")
        return f"<p>{self.inline(page, ' '.join(lines[at:end]))}</p>", end

    def body(self, page):
        """Returns the HTML of a page."""
        lines, at, parts, headings = [*read(page).split("\n"), ""], 0, [], iter(self.headings[page])
        while at < len(lines):
            if not lines[at] or re.fullmatch(r"<!--.*-->", lines[at]):
                at += 1
                continue
            if re.match("#+ ", lines[at]):
                parts.append(self.heading(page, next(headings)))
                at += 1
                continue
            part, at = self.block_at(lines[at])(page, lines, at)
            parts.append(part)
        return "\n".join(parts)

    def heading(self, page, found):
        level = found.level + 1
        return f'<h{level} id="{found.place}">{self.inline(page, found.text)}</h{level}>'

    def block_at(self, line):
        """Returns the function for the block that begins with this line."""
        if line.startswith("```"):
            return self.code
        if line.startswith("|"):
            return self.table
        return self.list if ITEM.match(line) else self.paragraph

    def contents(self):
        """Returns a list of the pages, each with its parts."""
        parts = []
        for page, (title, *others) in self.headings.items():
            inner = "".join(f'<li><a href="#{it.place}">{self.inline(page, it.text, True)}</a></li>\n' for it in others if it.level == 2)
            named = f'<a href="#{title.place}">{self.inline(page, title.text, True)}</a>'
            parts.append(f"<details><summary>{named}</summary>\n<ul>\n{inner}</ul>\n</details>\n")
        return "".join(parts)


def html():
    """Returns the manual."""
    manual = Manual()
    sections = "".join(f"<section>\n{manual.body(page)}\n</section>\n" for page in manual.headings)
    return f"""<!DOCTYPE html>
<html lang="en">
<head>
<meta charset="utf-8">
<meta name="viewport" content="width=device-width, initial-scale=1">
<title>byzlab {version()}</title>
<style>{STYLE}</style>
</head>
<body>
<h1>byzlab {version()}: all pages</h1>
<nav>
{manual.contents()}</nav>
{sections}</body>
</html>
"""
