#!/usr/bin/env bash
# Compares each definition that docs/THEOREM.md shows with the file that it names above it.
set -eu
cd "$(dirname "$0")/.."
python3 - <<'PY'
import re, sys

page = open("docs/THEOREM.md", encoding="utf-8").read()
shown, wrong = 0, 0
for path, box in re.findall(r"^`(\S+\.antt)`:\n\n```antt\n(.*?)\n```$", page, re.M | re.S):
    with open(f"crates/{path}", encoding="utf-8") as it:
        text = re.sub(r"^--.*\n", "", it.read(), flags=re.M)
    for definition in box.split("\n\n"):
        shown += 1
        if f"\n{definition}\n" not in text:
            wrong += 1
            print(f"docs/THEOREM.md shows another text than crates/{path}: {definition.splitlines()[0]}", file=sys.stderr)
print(f"docs/THEOREM.md: {shown} definitions, {wrong} of them other than in their files")
sys.exit(wrong > 0)
PY
