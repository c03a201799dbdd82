#!/usr/bin/env bash
# What can be checked of README and docs/ without the program: that each link leads somewhere, that long pages begin with a
# list of contents, that the versions agree, that each table of figures has its command, that sentences
# are short and plain on average and each, that --help has the same lines and statuses, that the pages together stay short,
# and that tables are those of the files that they are made from.
set -u
cd "$(dirname "$0")/.."
failures=0
python3 - <<'PY' || failures=1
import glob, os, re, sys

MOST_WORDS_A_SENTENCE = 22      # their mean on a page
LONGEST_SENTENCE = 35           # except a list, which has four commas or more
MOST_ODD_WORDS = 12
MOST_WORDS = 45000
LONG = 150

pages = ["README.md"] + sorted(glob.glob("docs/*.md"))
others = ["c/LINKING.md", "attacks/README.md", "examples/machine/README.md"]
text = {page: open(page, encoding="utf-8").read() for page in pages + others}
failures = 0


def fail(why):
    global failures
    failures += 1
    print("page text:", why, file=sys.stderr)


def without_code(page):
    return re.sub(r"(?s:```.*?```)|^ {4}(?! *(?:- |\d+\. )).*$", "", page, flags=re.M)


def anchor(heading):
    plain = re.sub(r"\[([^\]]*)\]\([^)]*\)", r"\1", heading)
    return re.sub(r"[^\w\- ]", "", plain.lower().strip()).replace(" ", "-")


anchors = {page: {anchor(h) for h in re.findall(r"^#+ (.*)$", without_code(it), re.M)} for page, it in text.items()}

# each link names a file that is there, and a heading of it
for page, it in text.items():
    for target in re.findall(r"\]\(([^)\s]+)\)", without_code(it)):
        if re.match(r"[a-z]+:", target):
            continue
        file, _, heading = target.partition("#")
        path = os.path.normpath(os.path.join(os.path.dirname(page), file)) if file else page
        if not os.path.exists(path):
            fail(f"{page}: the link {target} leads to no file")
        elif heading and path in anchors and heading not in anchors[path]:
            fail(f"{page}: the link {target} leads to no heading of {path}")

# a long page has links to its headings before the second of them
for page in pages:
    front = "## ".join(text[page].split("\n## ")[:2])
    if page != "README.md" and text[page].count("\n") > LONG and len(re.findall(r"\]\(#", front)) < 3:
        fail(f"{page} has more than {LONG} lines and no list of contents")

# one version
version = open("VERSION").read().strip()
for file, pattern in (("rust/Cargo.toml", r'^version = "(.*)"'), ("c/envy_text.h", r'^#define ENVY_VERSION "(.*)"')):
    found = re.search(pattern, open(file).read(), re.M)
    if found and found.group(1) != version:
        fail(f"{file} has the version {found.group(1)}, and VERSION {version}")

# a table of figures has a command in its section, or a link to the page that has it
source = r"examples/[a-z_/.-]+\.sh|\./envy [a-z]+|\.ci/run|make -C|\]\(PERFORMANCE\.md#"
for page in ("docs/PERFORMANCE.md", "docs/RESEARCH.md", "docs/PAPER.md", "docs/CHANGING.md"):
    for section in re.split(r"(?m)^## ", text.get(page, ""))[1:]:
        figures = [line for line in section.split("\n") if line.startswith("|") and re.search(r"\|\s*[\d,.]+", line)]
        if figures and not re.search(source, section):
            fail(f"{page}: no command for the figures of \"" + section.split("\n")[0] + "\"")

# sentences: their mean, and words that an engineer reads twice
for page in pages:
    prose = re.sub(r"(?s:```.*?```)|^ {4}.*$|^\|.*$|^#.*$|`[^`]*`", " x ", text[page], flags=re.M)
    lengths = [len(s.split()) for s in re.split(r"(?<=[.!?:;])\s", prose) if len(s.split()) > 2]
    mean = sum(lengths) / max(1, len(lengths))
    odd = len(re.findall(r"\b(behind|of before|so many|taken up|but for)\b", prose))
    odd += len(re.findall(r", where\b|\bWhere\b|\bwhere (?:the|a|an|it|no)\b", prose))
    if mean > MOST_WORDS_A_SENTENCE:
        fail(f"{page}: {mean:.1f} words a sentence, {MOST_WORDS_A_SENTENCE} at most")
    if odd > MOST_ODD_WORDS:
        fail(f"{page}: {odd} times behind, of before, so many, taken up, but for, or where for if; {MOST_ODD_WORDS} at most")

    # the same without links' targets, item by item
    prose = re.sub(r"(?s:```.*?```)|^ {4}(?! *(?:- |\d+\. )).*$|^\|.*$|^#.*$|^<!--.*$", "\n\n", text[page], flags=re.M)
    prose = re.sub(r"\[([^\]]*)\]\([^)]*\)", r"\1", re.sub(r"`[^`]*`", "x", prose))
    for item in re.split(r"\n\s*\n|\n(?=- |\d+\. )", prose):
        for sentence in re.split(r"(?<=[.!?:;])\)?\*{0,2}\s", " ".join(item.split())):
            length = len(re.findall(r"\S*\w\S*", sentence))
            if length > LONGEST_SENTENCE and sentence.count(",") < 4 and " · " not in sentence:
                fail(f"{page}: a sentence of {length} words: {sentence[:90]} ..")

# --help and docs/COMMANDS.md have the same lines of a trace and the same statuses
help, commands = open("words/page").read(), text["docs/COMMANDS.md"]
lines = set(re.findall(r"^  ([a-z]+(?: [A-Z])*)  ", help, re.M))
shown = set(re.findall(r"^\| `([a-z]+(?: [A-Z])*)` \| ", commands.split("## The lines of a trace")[1].split("## What `tpca`")[0], re.M))
shown -= set(re.findall(r"^\| `([a-z]+)` \| [^|]*\|$", commands, re.M))      # the counters of stat
if lines != shown:
    fail(f"lines of a trace in --help or docs/COMMANDS.md alone: {sorted(lines ^ shown)}")
statuses = set(re.findall(r"(?:^|  )(\d+)  ?(?=[a-z])", help.split("Exit status:")[1], re.M)) - {"70"}
rows = re.findall(r"^\| ([\d, ]+) \|", commands.split("## Exit statuses")[1], re.M)
if statuses != set(", ".join(rows).split(", ")):
    fail(f"statuses of --help {sorted(statuses)}, of docs/COMMANDS.md {rows}")

# as wc -w counts them, code and tables too
words = sum(len(text[page].split()) for page in pages)
if words > MOST_WORDS:
    fail(f"README and docs/ have {words} words, {MOST_WORDS} at most")
print(f"page text: {len(pages)} pages of {words} words")
sys.exit(failures > 0)
PY
examples/tables.sh --compare || failures=1
exit $failures
