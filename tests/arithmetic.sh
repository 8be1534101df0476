#!/usr/bin/env bash
# Every figure of docs/ARITHMETIC.md is the one that tools/worked.py works out; and that test does find a wrong one.
set -eu
cd "$(dirname "$0")/.."
page=docs/ARITHMETIC.md
python3 tools/worked.py --check "$page"
python3 tests/test_worked.py

made=$(mktemp -d)
trap 'rm -r "$made"' EXIT

# the pages to print: the form has a page of its own, links to headings lead to them, and the list of links is left out
html() { # PAGE: as HTML
  PYTHONPATH=tools PYTHONDONTWRITEBYTECODE=1 python3 -c 'import pathlib, sys, paper; print(paper.page(pathlib.Path(sys.argv[1])))' "$1"
}
html "$page" > "$made/page.html"
grep -q '<h2 class="page" id="18-a-form-for-one-step">' "$made/page.html"
html docs/PROMISES.md > "$made/page.html"
grep -o 'href="#[^"]*"' "$made/page.html" | sort -u | sed 's/href="#\(.*\)"/\1/' > "$made/wanted"
test "$(wc -l < "$made/wanted")" -gt 100
while read -r name; do
  grep -q " id=\"$name\">" "$made/page.html" || { echo "$name is no heading of the printed page"; exit 1; }
done < "$made/wanted"
if grep -q '^<p>.*\.antt.*: \.\./crates' "$made/page.html"; then echo 'the list of links is printed'; exit 1; fi

# and no page is written over what it was read from
printf '# A page\n' > "$made/own.html"
cp "$made/own.html" "$made/as_it_was"
if python3 tools/paper.py "$made/own.html" -o "$made" > "$made/said" 2>&1; then echo 'a page is written over'; exit 1; fi
cmp "$made/own.html" "$made/as_it_was"

# the worked steps tell each slip that the page names from the right figures
python3 tests/test_slips.py
