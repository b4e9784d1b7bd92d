#!/usr/bin/env python3
"""Writes the syntax files of the editors from one table of the language's words and signs.

    editors/make.py            writes vim/syntax/pan.vim and pan.tmLanguage.json beside this script
    editors/make.py --check    writes nothing, names each file that is not what it would write, and ends with 1 then

tests/editors.py compares the table with the compiler's own tables, and the files with what is written here.
"""
import json
import re
import sys
from pathlib import Path

HERE = Path(__file__).resolve().parent

# Each class of words and signs: how vim and TextMate name it, and what is in it.
WORDS = {
    "Header": ("Structure", "keyword.declaration", "object structure unique declaration template"),
    "Statement": ("Statement", "keyword.other", "final variable function type bind valid include prefix"),
    "TypeWord": ("StorageClass", "storage.modifier", "with extensible choice"),
    "Conditional": ("Conditional", "keyword.control.conditional", "if else"),
    "Loop": ("Repeat", "keyword.control.loop", "while for foreach"),
    "Constant": ("Constant", "constant.language", "true false undef null"),
}
NAMES = {
    "Automatic": ("Special", "variable.language", "SELF OBJECT TEMPLATE FUNCTION ARGC ARGV"),
    "BasicType": (
        "Type",
        "storage.type",
        "string long boolean number property resource element list dict nlist",
    ),
    "Function": (
        "Function",
        "support.function",
        "append base64_decode base64_encode clone create debug delete deprecated dict digest error escape exists "
        "file_contents file_exists format if_exists index ip4_to_long is_boolean is_defined is_dict is_list is_long "
        "is_nlist is_null is_number is_property is_resource is_string join json_decode json_encode key length list "
        "long_to_ip4 match matches merge nlist path_exists prepend replace return splice split substr to_boolean "
        "to_long to_lowercase to_string to_uppercase traceback unescape value",
    ),
}
SIGNS = {
    "Bracket": ("Delimiter", "punctuation.section", "{ } ( ) [ ]"),
    "Separator": ("Delimiter", "punctuation.separator", "; , : ?"),
    "Assignment": ("Operator", "keyword.operator.assignment", "= ?="),
    "Operator": ("Operator", "keyword.operator", "== != < <= > >= + - * / % ! ~ & && | || ^ .."),
}
# What is no word and no sign of the language.
OTHERS = {
    "Name": ("Identifier", "entity.name.type.template"),
    "Number": ("Number", "constant.numeric"),
    "Text": ("String", "string.quoted"),
    "Escape": ("SpecialChar", "constant.character.escape"),
    "Comment": ("Comment", "comment.line.number-sign"),
    "Annotation": ("PreProc", "comment.block.annotation"),
    "Mistake": ("Error", "invalid.illegal"),
}
NAME = "[A-Za-z0-9_.+/-]"


def signs_longest_first():
    """Each sign with its class; one that begins another stands behind it."""
    pairs = [(sign, name) for name, (_, _, signs) in SIGNS.items() for sign in signs.split()]
    return sorted(pairs, key=lambda pair: (-len(pair[0]), pair[0]))


def in_vim(text):
    """A text as a pattern of vim between slashes."""
    return re.sub(r"[][\\/.*^$~]", lambda found: "\\" + found[0], text)


def vim_words():
    for name, (_, _, words) in WORDS.items():
        yield f"syn keyword pan{name} {' '.join(word for word in words.split() if word != 'template')}"
    yield "syn keyword panHeader template nextgroup=panName skipwhite skipempty"
    yield f"syn keyword panAutomatic {NAMES['Automatic'][2]}"
    yield f"syn match panBasicType /\\<\\%({in_choice(NAMES['BasicType'][2])}\\)\\>/"
    yield f"syn match panFunction /\\<\\%({in_choice(NAMES['Function'][2])}\\)\\ze\\_s*(/"


def in_choice(words):
    return "\\|".join(words.split())


def vim_signs():
    """Shorter signs first: of two matches at one place vim takes the one that was defined last."""
    for sign, name in reversed(signs_longest_first()):
        yield f"syn match pan{name} /{in_vim(sign)}/"


def vim_file():
    lines = [
        '" Vim syntax of Pan, the configuration language of Quattor. Made by editors/make.py: change the table there.',
        'if exists("b:current_syntax")',
        "  finish",
        "endif",
        "syn case match",
        "syn iskeyword a-z,A-Z,48-57,_",
        "",
        "\" Words of the language, and names that have a meaning of their own.",
        *vim_words(),
        "",
        "\" Signs.",
        *vim_signs(),
        "",
        "\" The name behind `template`, numbers, texts, here-documents, annotations and comments.",
        f"syn match panName contained /{NAME.replace('/', chr(92) + '/')}\\+/",
        r"syn match panNumber /\<\%(0x\x\+\|\d\+\)\>/",
        r"syn match panMistake /\<\d\+\%(\.\.\@!\|[eE]\)[0-9.]*/",
        r"syn region panText matchgroup=panText start=/'/ skip=/''/ end=/'/ contains=panQuote",
        r"syn match panQuote contained /''/",
        r'syn region panText matchgroup=panText start=/"/ skip=/\\./ end=/"/ contains=panWrongEscape,panEscape',
        r"syn match panWrongEscape contained /\\./",
        r'syn match panEscape contained /\\\%([ntrfb"\\]\|x\x\x\)/',
        r"syn region panText start=/<<\z(\h\w*\);[ \t]*\r\?$/ end=/^\z1\r\?$/ contains=panHereEnd",
        r"syn match panHereEnd contained /\%(<<\h\w*\)\@<=;/",
        r"syn region panAnnotation start=/@\w*[ \t]*{/ end=/}/",
        r"syn match panComment /#.*$/ contains=@Spell",
        "syn sync fromstart",
        "",
        "\" How each class is shown.",
        *(f"hi def link pan{name} {row[0]}" for name, row in [*WORDS.items(), *NAMES.items(), *SIGNS.items(), *OTHERS.items()]),
        "hi def link panQuote panEscape",
        "hi def link panWrongEscape panMistake",
        "hi def link panHereEnd panSeparator",
        "",
        'let b:current_syntax = "pan"',
    ]
    return "\n".join(lines) + "\n"


def textmate_texts():
    text, escape, mistake = (OTHERS[name][1] + ".pan" for name in ("Text", "Escape", "Mistake"))
    separator = SIGNS["Separator"][1] + ".pan"
    yield {"name": text, "begin": "'", "end": "'(?!')", "patterns": [{"name": escape, "match": "''"}]}
    yield {
        "name": text,
        "begin": '"',
        "end": '"',
        "patterns": [{"name": escape, "match": r'\\(?:[ntrfb"\\]|x[0-9A-Fa-f]{2})'}, {"name": mistake, "match": r"\\."}],
    }
    yield {
        "name": text,
        "begin": r"<<([A-Za-z_][A-Za-z0-9_]*)(;)[ \t]*\r?$",
        "beginCaptures": {"2": {"name": separator}},
        "end": r"^\1\r?$",
    }


def textmate_words():
    for name, (_, scope, words) in WORDS.items():
        yield {"name": f"{scope}.pan", "match": rf"\b(?:{'|'.join(words.split())})\b"}
    yield {"name": NAMES["Automatic"][1] + ".pan", "match": rf"\b(?:{'|'.join(NAMES['Automatic'][2].split())})\b"}
    yield {"name": NAMES["Function"][1] + ".pan", "match": rf"\b(?:{'|'.join(NAMES['Function'][2].split())})\b(?=\s*\()"}
    yield {"name": NAMES["BasicType"][1] + ".pan", "match": rf"\b(?:{'|'.join(NAMES['BasicType'][2].split())})\b"}


def textmate_signs():
    for sign, name in signs_longest_first():
        yield {"name": SIGNS[name][1] + ".pan", "match": re.escape(sign)}


def textmate_file():
    header = {
        "match": rf"\b(template)\b[ \t]+({NAME}+)",
        "captures": {"1": {"name": WORDS["Header"][1] + ".pan"}, "2": {"name": OTHERS["Name"][1] + ".pan"}},
    }
    grammar = {
        "information_for_contributors": ["Made by editors/make.py: change the table there."],
        "name": "Pan",
        "scopeName": "source.pan",
        "fileTypes": ["pan"],
        "patterns": [
            {"name": OTHERS["Comment"][1] + ".pan", "match": "#.*$"},
            {"name": OTHERS["Annotation"][1] + ".pan", "begin": r"@[A-Za-z0-9_]*[ \t]*\{", "end": r"\}"},
            *textmate_texts(),
            header,
            {"name": OTHERS["Mistake"][1] + ".pan", "match": r"\b[0-9]+(?:\.(?!\.)|[eE])[0-9.]*"},
            {"name": OTHERS["Number"][1] + ".pan", "match": r"\b(?:0x[0-9A-Fa-f]+|[0-9]+)\b"},
            *textmate_words(),
            *textmate_signs(),
        ],
    }
    return json.dumps(grammar, indent=2) + "\n"


FILES = {"vim/syntax/pan.vim": vim_file, "pan.tmLanguage.json": textmate_file}


def main(words):
    if words not in ([], ["--check"]):
        sys.exit(__doc__)
    status = 0
    for name, make in FILES.items():
        path, text = HERE / name, make()
        if not words:
            path.parent.mkdir(parents=True, exist_ok=True)
            path.write_text(text)
        elif not path.is_file() or path.read_text() != text:
            print(f"{name} is not what editors/make.py writes")
            status = 1
    return status


if __name__ == "__main__":
    sys.exit(main(sys.argv[1:]))
