#!/usr/bin/env python3
"""A paper of docs/ as pages to print: HTML with a style sheet for A4, and a PDF where a program is there that makes one."""

import argparse
import html
import re
import shutil
import subprocess
import sys
from pathlib import Path

ROOT = Path(__file__).resolve().parent.parent
HELP = """\
It reads what the papers use of Markdown: headings, paragraphs, tables, lists, blocks, links, *emphasis*, **strong** and `code`.
A line <!-- page --> before a heading gives its section a page of its own. A link to a heading names the page where it stands, if the
program that makes the PDF can tell it; a link to a file is printed as its path, and the list of links at a page's end is left out.
The PDF is made by weasyprint, wkhtmltopdf or chromium, whichever is there first (Debian has packages of all three); without
any of them the HTML is left, which a browser prints.

examples:
  tools/paper.py docs/ARITHMETIC.md -o target/paper
  tools/paper.py docs/PROMISES.md -o target/paper
"""

STYLE = """\
@page { size: A4; margin: 15mm 18mm 17mm 18mm;
        @bottom-left { content: "%(foot)s"; font-size: 8pt } @bottom-right { content: counter(page) " / " counter(pages); font-size: 8pt } }
body { font-family: "DejaVu Serif", serif; font-size: 9.5pt; line-height: 1.35 }
h1 { font-size: 17pt } h2 { font-size: 12.5pt; page-break-after: avoid } h2.page { page-break-before: always }
pre { font-family: "DejaVu Sans Mono", monospace; font-size: 7.6pt; line-height: 1.2; page-break-inside: avoid; margin: 1.5mm 0 1.5mm 3mm }
p.lead { page-break-after: avoid }
code { font-family: "DejaVu Sans Mono", monospace; font-size: 88%% }
table { border-collapse: collapse; page-break-inside: avoid; font-size: 8.8pt } thead { display: table-header-group }
table.long { page-break-inside: auto } tr { page-break-inside: avoid } code, a { overflow-wrap: anywhere }
h3 { font-size: 10.5pt; page-break-after: avoid; margin-bottom: 1mm } a { color: inherit; text-decoration: none }
a[href^="#"]::after { content: " p.\\0000a0" target-counter(attr(href url), page); font-size: 75%% }
td, th { border: 0.4pt solid #666; padding: 0.6mm 2mm; text-align: left; vertical-align: top }
"""

PAGE = "<!-- page -->"          # the section after it begins a page of its own
LINKS = "<!-- links -->"        # a list of links follows, up to the end
LONG = 25                       # rows from which on a table may be broken


def anchor(words):
    """The name by which a heading is linked to."""
    return re.sub(r"[^\w\- ]", "", words.lower()).replace(" ", "-")


def inline(text):
    text = html.escape(text, quote=False)
    text = re.sub(r"!?\[([^\[\]]+)\]\(([^()]*)\)", lambda link: to_heading(link[1], link[2][1:]) if link[2].startswith("#") else link[1], text)
    text = re.sub(r"\[(`[^`]+`)\]", r"\1", text)
    text = re.sub(r"\[([^\[\]`]+)\]", lambda link: to_heading(link[1], anchor(html.unescape(link[1]))), text)
    text = re.sub(r"`([^`]+)`", r"<code>\1</code>", text)
    text = re.sub(r"\*\*([^*]+)\*\*", r"<strong>\1</strong>", text)
    return re.sub(r"\*([^*\s][^*]*)\*", r"<em>\1</em>", text)


def to_heading(words, name):
    return f'<a href="#{name}">{words}</a>'


def table(lines):
    rows = [[cell.strip() for cell in re.split(r"(?<!\\)\|", line.strip().strip("|"))] for line in lines]
    def row(cells, tag):
        return "<tr>" + "".join(f"<{tag}>{inline(cell)}</{tag}>" for cell in cells) + "</tr>"
    kind = ' class="long"' if len(rows) > LONG else ""
    return f"<table{kind}><thead>" + row(rows[0], "th") + "</thead><tbody>" + "".join(row(r, "td") for r in rows[2:]) + "</tbody></table>"


def block(lines):
    """A page may end between the stages of a block, which blank lines part, and nowhere else."""
    return "".join(f"<pre>{html.escape(stage, quote=False)}</pre>" for stage in "\n".join(lines).split("\n\n"))


def heading(line, own_page):
    level = len(line) - len(line.lstrip("#"))
    text = line[level:].strip()
    own = ' class="page"' if own_page else ""
    return f'<h{level}{own} id="{anchor(text)}">{inline(text)}</h{level}>'


def parts(lines):
    """The page's parts, each as HTML."""
    at = 0
    while at < len(lines):
        line, start = lines[at], at
        at += 1
        if line.startswith("```"):
            while at < len(lines) and not lines[at].startswith("```"):
                at += 1
            yield block(lines[start + 1:at])
            at += 1
        elif line.startswith("#"):
            yield heading(line, start > 0 and lines[start - 1] == PAGE)
        elif line.startswith("    "):
            while at < len(lines) and lines[at].startswith("    "):
                at += 1
            yield block([row[4:] for row in lines[start:at]])
        elif line.startswith("|"):
            while at < len(lines) and lines[at].startswith("|"):
                at += 1
            yield table(lines[start:at])
        elif re.match(r"(\d+\.|-) ", line):
            while at < len(lines) and re.match(r"(\d+\.|-) ", lines[at]):
                at += 1
            tag = "ol" if line[0].isdigit() else "ul"
            yield f"<{tag}>" + "".join(f"<li>{inline(row.split(' ', 1)[1])}</li>" for row in lines[start:at]) + f"</{tag}>"
        elif line.strip() and not line.startswith("<!--"):
            yield f"<p>{inline(line)}</p>"


def page(path):
    text = path.read_text()
    heading_found = re.search(r"^# (.*)$", text, re.MULTILINE)
    title = heading_found[1] if heading_found else path.stem
    version = (ROOT / "VERSION").read_text().strip()
    style = STYLE % {"foot": f"{title}, version {version}"}
    shown = list(parts(text.split(LINKS)[0].splitlines()))
    # a line that leads to a table or a block stays with it
    for at, follows in enumerate(shown[1:]):
        if follows.startswith(("<table", "<pre")):
            shown[at] = shown[at].replace("<p>", '<p class="lead">', 1)
    body = "\n".join(shown)
    head = f'<meta charset="utf-8"><title>{html.escape(title)}</title><style>{style}</style>'
    return f'<!DOCTYPE html>\n<html lang="en"><head>{head}</head>\n<body>\n{body}\n</body></html>\n'


def printed(source, target):
    """The program that made the PDF, or None."""
    for words in (["weasyprint", "-q", source, target], ["wkhtmltopdf", "-q", source, target],
                  ["chromium", "--headless", "--no-sandbox", "--no-pdf-header-footer", f"--print-to-pdf={target}", source]):
        if shutil.which(words[0]) and subprocess.run([str(word) for word in words], stderr=subprocess.DEVNULL).returncode == 0:
            return words[0]
    return None


def main():
    parser = argparse.ArgumentParser(description=__doc__, epilog=HELP, formatter_class=argparse.RawDescriptionHelpFormatter)
    parser.add_argument("paper", type=Path)
    parser.add_argument("-o", "--out", type=Path, default=Path("target/paper"), help="the folder (default: target/paper)")
    parser.add_argument("--version", action="version", version=(ROOT / "VERSION").read_text().strip())
    options = parser.parse_args()
    source = options.out / (options.paper.stem + ".html")
    target = source.with_suffix(".pdf")
    try:
        if options.paper.resolve() in (source.resolve(), target.resolve()):
            sys.exit(f"paper.py: {options.paper} would be written over; -o takes another folder")
        shown = page(options.paper)
        options.out.mkdir(parents=True, exist_ok=True)
        source.write_text(shown)
    except (OSError, UnicodeDecodeError) as fault:
        sys.exit(f"paper.py: {fault}")
    maker = printed(source, target)
    print(f"{target}, made by {maker}" if maker else f"{source}; no program is here that makes a PDF of it: a browser prints it")


if __name__ == "__main__":
    main()
