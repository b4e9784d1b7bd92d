#!/usr/bin/env python3
"""Compares the syntax files of the editors with the compiler's tables, and tries them on the examples.

    tests/editors.py      ends with `N passed, M failed`; needs no program

- The table of editors/make.py is that of the compiler: its words and signs, its built-in functions, automatic names
  and basic types, as the definitions in crates/*/specs list them.
- The files are what editors/make.py makes of it.
- Each token of the examples, and of the text below, falls into the class that it has to the compiler: in the TextMate
  grammar, and in vim where vim is there. The tokens are those of docs/LANGUAGE.md, taken by a small lexer of this test.
"""
import json
import re
import shutil
import subprocess
import sys
import tempfile
from pathlib import Path

TOP = Path(__file__).resolve().parent.parent
sys.path.insert(0, str(TOP / "editors"))
import make  # noqa: E402

SPECS = TOP / "crates"
TABLES = {
    "Automatic": ["dml_meaning/specs/Words.antt"],
    "BasicType": ["type_defs/specs/Names.antt"],
    "Function": [
        "builtins_text/specs/Calls.antt",
        "builtins_tree/specs/Calls.antt",
        "builtins_code/specs/Calls.antt",
        "dml_meaning/specs/Words.antt",
    ],
}

SAMPLE = r"""# Each kind of token that the examples may lack.
@documentation { of a template,
  over two lines }
structure template a.b/c-d+e_1;
'x' = "a\tb\x41\"c" + 'it''s' + '' + <<END;
text { if ( 'is' ) } ; foreach
 END
END
'n' = 0x1f + 017 + 0 - (~1 % -2) * !true / 3;
'c' ?= { iffy = if_exists("t"); while (iffy != null && SELF['a'] <= 2 || ARGC >= 1) iffy[0] = undef; };
bind '/' = extensible { 'a' ? string(1..)[..3]{2} = 'v' with length (SELF) > 0 'l' : choice('a', 'b')* include base };
'b' = 1 & 2 | 3 ^ 4 < 5 == false;
"""


def texts_of(source):
    """The entries of tables of definitions: a text, and what it stands for."""
    return re.findall(r'\(codes "([^"]*)", ([^)]*)\)', source)


def definition(source, name):
    """The lines of one definition, from its equation to the next blank line."""
    found = re.search(rf"^{name}\b.*?=\n?(.*?)(?:\n\n|\Z)", source, re.M | re.S)
    return found[0] if found else ""


def compiler_words():
    source = (SPECS / "pan_ast/specs/Sorts.antt").read_text()
    return [dict(texts_of(definition(source, name))) for name in ("words", "signs")]


def tables_agree():
    """Each table, with the words that stand in one of the two alone, or twice."""
    words, signs = compiler_words()
    for kind, table, wanted in (("words", make.WORDS, words), ("signs", make.SIGNS, signs)):
        own = [word for row in table.values() for word in row[2].split()]
        yield f"the {kind} of the language", differing(own, wanted, 20)
    for kind, files in TABLES.items():
        wanted = {text for name in files for text, what in texts_of((SPECS / name).read_text()) if belongs(kind, name, what)}
        yield f"the names of {kind}", differing(make.NAMES[kind][2].split(), wanted, 5)


def differing(own, wanted, least):
    few = [] if len(wanted) > least else [f"the compiler's table is not read: {sorted(wanted)}"]
    return few + sorted({word for word in own if own.count(word) > 1} | (set(own) ^ set(wanted)))


def belongs(kind, name, what):
    """Words.antt holds two tables: the automatic names are told by what they stand for."""
    if not name.startswith("dml_meaning"):
        return True
    return ("." in what) == (kind == "Function")


def files_are_made():
    for name, text in make.FILES.items():
        is_made = (TOP / "editors" / name).read_text() == text()
        yield f"{name} is what editors/make.py makes", [] if is_made else ["it differs"]


# A lexer by docs/LANGUAGE.md: kind, text and place of each token.

PIECES = [
    ("Blank", r"[ \t\r\n]+"),
    ("Comment", r"#[^\n]*"),
    ("Annotation", r"@[A-Za-z0-9_]*[ \t]*\{[^}]*\}"),
    ("Here", r"<<([A-Za-z_][A-Za-z0-9_]*);[ \t]*\r?\n(?s:.*?)^\1\r?$"),
    ("Text", r"'(?:[^']|'')*'|\"(?s:[^\"\\]|\\.)*\""),
    ("Int", r"0x[0-9A-Fa-f]+|[0-9]+"),
    ("Word", r"[A-Za-z_][A-Za-z0-9_]*"),
    ("Sign", "|".join(re.escape(sign) for sign, _ in make.signs_longest_first())),
]


def tokens_of(text):
    place, named, tokens = 0, False, []
    while place < len(text):
        is_name = not named and [token[1] for token in tokens if token[0] == "Word"][-1:] == ["template"]
        kind, pattern = next(
            (kind, pattern)
            for kind, pattern in ([("Name", f"{make.NAME}+")] if is_name else []) + PIECES
            if re.compile(pattern, re.M).match(text, place)
        )
        found = re.compile(pattern, re.M).match(text, place)
        named = named or kind == "Name"
        if kind != "Blank":
            tokens.append((kind, found[0], place))
        place = found.end()
    return tokens


CLASS_OF_SIGN = {sign: name for sign, name in make.signs_longest_first()}
CLASS_OF_WORD = {word: name for name, row in make.WORDS.items() for word in row[2].split()}


def class_of(kind, text, behind):
    """What a token is to the compiler, as the table names it; nothing for a name of the template's own."""
    if kind in ("Name", "Comment", "Annotation", "Text"):
        return kind
    if kind == "Here":
        return "Text"
    if kind == "Int":
        return "Number"
    if kind == "Sign":
        return CLASS_OF_SIGN[text]
    if text in CLASS_OF_WORD:
        return CLASS_OF_WORD[text]
    if text in make.NAMES["Automatic"][2].split():
        return "Automatic"
    if text in make.NAMES["Function"][2].split() and re.match(r"\s*\(", behind):
        return "Function"
    return "BasicType" if text in make.NAMES["BasicType"][2].split() else ""


# A reader of the TextMate grammar: the scope of each character, line by line.

class Open:
    def __init__(self, rule, end):
        self.rule, self.end = rule, end
        self.rules = rule.get("patterns", [])


def scopes_of(grammar, text):
    """For each character the innermost scope."""
    scopes, stack = [""] * len(text), [Open({"patterns": grammar["patterns"]}, None)]
    start = 0
    for line in text.splitlines(keepends=True):
        read_line(stack, line.rstrip("\n"), start, scopes)
        start += len(line)
    return scopes


def read_line(stack, line, start, scopes):
    place = 0
    while place <= len(line):
        top = stack[-1]
        ends = [(top.end.search(line, place), None)] if top.end else []
        found = [(re.compile(rule.get("match") or rule["begin"]).search(line, place), rule) for rule in top.rules]
        found = [(hit, rule) for hit, rule in ends + found if hit]
        until = min((hit.start() for hit, _ in found), default=len(line))
        paint(scopes, start + place, start + until, top.rule.get("name", ""))
        if not found:
            return
        hit, rule = next((hit, rule) for hit, rule in found if hit.start() == until)
        name = (rule or top.rule).get("name", "")
        paint(scopes, start + hit.start(), start + hit.end(), name)
        for group, capture in (rule or {}).get("captures", (rule or {}).get("beginCaptures", {})).items():
            paint(scopes, start + hit.start(int(group)), start + hit.end(int(group)), capture["name"])
        if rule is None:
            stack.pop()
        elif "begin" in rule:
            end = re.sub(r"\\(\d)", lambda group: re.escape(hit[int(group[1])]), rule["end"])
            stack.append(Open(rule, re.compile(end)))
        elif hit.end() == hit.start():
            return
        place = hit.end()


def paint(scopes, start, end, name):
    scopes[start:end] = [name] * (end - start)


def scope_of_class(name):
    for table in (make.WORDS, make.NAMES, make.SIGNS, make.OTHERS):
        if name in table:
            return table[name][1] + ".pan"
    return ""


def wrong_in_textmate(files):
    grammar = json.loads(make.textmate_file())
    wrong = []
    for file, text in files.items():
        scopes = scopes_of(grammar, text)
        for kind, token, place in tokens_of(text):
            wanted = class_of(kind, token, text[place + len(token) :])
            last = place + len(token) - 1
            if {scopes[place], scopes[last]} != {scope_of_class(wanted)}:
                wrong.append(f"{file}: {token!r} is {scopes[place]!r}, not {scope_of_class(wanted)!r}")
    return wrong


VIM_SCRIPT = """\
syntax on
let said = []
for place in readfile('places')
  let [file, line, column] = split(place, "\\t")
  if !exists('shown') || shown != file
    execute 'edit!' file
    set syntax=pan
    let shown = file
  endif
  call add(said, synIDattr(synID(line, column, 0), 'name'))
endfor
call writefile(said, 'said')
qall!
"""


def wrong_in_vim(files):
    with tempfile.TemporaryDirectory() as folder:
        folder, wanted = Path(folder), []
        with (folder / "places").open("w") as places:
            for number, text in enumerate(files.values()):
                (folder / f"{number}.pan").write_text(text)
                for kind, token, place in tokens_of(text):
                    before = text[:place]
                    column = len(before.rpartition("\n")[2].encode()) + 1
                    places.write(f"{number}.pan\t{before.count(chr(10)) + 1}\t{column}\n")
                    name = class_of(kind, token, text[place + len(token) :])
                    wanted.append((number, token, f"pan{name}" if name else ""))
        (folder / "script").write_text(VIM_SCRIPT)
        words = ["vim", "-es", "-u", "NONE", "-N", "--cmd", f"set runtimepath^={TOP / 'editors/vim'}", "-S", "script"]
        subprocess.run(words, cwd=folder, stdin=subprocess.DEVNULL, capture_output=True, timeout=600)
        said = (folder / "said").read_text().split("\n")[:-1]
        if len(said) != len(wanted):
            return [f"vim told {len(said)} of {len(wanted)} tokens"]
        return [f"{number}: {token!r} is {is_one!r}, not {name!r}" for (number, token, name), is_one in zip(wanted, said) if name != is_one]


def examples():
    files = {str(path.relative_to(TOP)): path.read_text() for path in sorted((TOP / "examples").rglob("*.pan"))}
    return {**files, "the text of this test": SAMPLE}


def main():
    passed = failed = 0
    tries = [*tables_agree(), *files_are_made()]
    tries.append(("the TextMate grammar on the examples", wrong_in_textmate(examples())))
    if shutil.which("vim"):
        tries.append(("the vim file on the examples", wrong_in_vim(examples())))
    else:
        print("skipped: no vim is here")
    for name, wrong in tries:
        passed, failed = passed + (not wrong), failed + bool(wrong)
        if wrong:
            print(f"FAILED {name}", *wrong[:20], sep="\n  ")
    print(f"{passed} passed, {failed} failed")
    return 1 if failed else 0


if __name__ == "__main__":
    sys.exit(main())
