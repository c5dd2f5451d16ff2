#!/usr/bin/env bash
# Compares the sentences that `fault_words` is proved to print, by the definitions of its specs/, with the columns "In
# words" of docs/BAGS.md and docs/POLICY.md, and prints those that only one side has. A row's fault must be the last
# code of its sentence. Lack of memory has a row in docs/POLICY.md alone, and is left out.
set -eu
top=$(readlink -f "$(dirname "$(readlink -f "$0")")/..")
. "$top/trials/needs.sh"
needs python3
python3 - "$top" <<'SCRIPT'
import re
import sys
from pathlib import Path

top = Path(sys.argv[1])
# What a term of a definition is in a row.
PLACES = {'pattern_words (codes "role") rule.role': "ROLE", "action_words rule.action": "ACTION",
          "scope_words rule": "SCOPE", "cause_words cause": "CAUSE", "meaning_words coding": "MEANING",
          "printed_text caller": "CALLER", "printed_text name": "NAME", "printed_text path": "PATH",
          "printed_text file": "PATH", "manifest": "NAME", "path": "PATH", "decimal line": "LINE",
          "decimal offset": "OFFSET", "decimal number": "N"}
TOKEN = re.compile("|".join(rf"(?<![\w.]){re.escape(place)}(?![\w.])" for place in PLACES)
                   + r'|codes "[^"]*"|grouped max_\w+|[()]|\S+')
BEGINNINGS = ("this ", "the caller CALLER ", "the option --day DAY ", "rule N of the policy denies ",
              "no rule of the policy ", "the folder has no ", "something has ", "the bag has PATH, ", "in this path ",
              "%0A or %0D is ", "%25 is ", "it begins with ", "it is not ", "it has ")
CODE = re.compile(r"\((?:[A-Z]+\d* )?([A-Z]+\d*)\)$")


# Whether a text is a sentence of a fault, or another that the program prints to standard error, or a part of one.
def is_sentence(text):
    return bool(CODE.search(text) or text.startswith(BEGINNINGS))


LIMITS = {name: int(number) for crate in ("bag_text", "office_core")
          for file in (top / "crates" / crate / "specs").glob("*.antt")
          for name, number in re.findall(r"^(max_\w+) = ([0-9_]+)$", file.read_text(encoding="utf-8"), re.M)}


# The texts that a definition joins by `++`.
def texts_in(definition):
    texts, joins = [], False
    for token in TOKEN.findall(definition):
        if token in PLACES:
            text = PLACES[token]
        elif token.startswith('codes "'):
            text = token[7:-1]
        elif token.startswith("grouped "):
            text = f"{LIMITS[token[8:]]:,}"
        else:
            joins = token == "++" or (joins and token == "(")
            continue
        texts.append(texts.pop() + text if joins and texts else text)
        joins = False
    return texts


coded = set()
for file in sorted((top / "crates/fault_words/specs").glob("*.antt")):
    code = re.sub(r"^--.*$", "", file.read_text(encoding="utf-8"), flags=re.M)
    looks = re.search(r'looks_like kind = (codes "[^"]*" \+\+ \()kind( .*)', code)
    if looks:
        code = re.sub(r'looks_like \((codes "[^"]*")\)', lambda kind: looks[1] + kind[1] + looks[2],
                      code.replace(looks[0], ""))
    for definition in re.split(r"\n(?=\S)", code):
        for text in texts_in(definition):
            if definition.startswith("folder_words ") and not text.startswith(("a ", "the ")):
                text = "PATH " + text  # what is said of a file follows its path
            if is_sentence(text):
                coded.add(text)

told, wrong = set(), []
for page in ("docs/BAGS.md", "docs/POLICY.md"):
    for line in (top / page).read_text(encoding="utf-8").splitlines():
        cells = [cell.strip() for cell in line.strip("|").split("|")]
        if line.startswith("|") and len(cells) == 3 and is_sentence(cells[2]):
            told.add(cells[2])
            code, fault = CODE.search(cells[2]), cells[0].strip("`").split(" ")[0]
            if code and code.group(1) != fault:
                wrong.append(f"{page}: the sentence of {fault} is that of {code.group(1)}")

coded = {text for text in coded if not text.startswith("memory ran out")}
told = {text for text in told if not text.startswith("memory ran out")}
wrong += [f"only in the definitions: {text}" for text in sorted(coded - told)]
wrong += [f"only in the documents: {text}" for text in sorted(told - coded)]
print("\n".join(wrong + [f"words: {len(coded | told)} rows were compared, and {len(wrong)} differ"]))
sys.exit(1 if wrong else 0)
SCRIPT
