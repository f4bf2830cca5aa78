#!/usr/bin/env python3
"""Given rows: the inputs that `given_rows` answers and the answers that are right, kept apart in the crate.

  tools/house/rows.py split FOLDER   takes the files of rows in FOLDER apart: their inputs become crates/given_rows/data/NAME,
                               all their answers crates/given_rows/stdout. A file that FOLDER lacks stays as it is
  tools/house/rows.py join FOLDER    writes the files of rows, each row with its answer, into FOLDER

A file of rows has a first line that says its form, then a row a line: fields with a tab between two, one of them the
answer. To add rows: join, add them to a file of FOLDER with answers from elsewhere than this program, split.
"""
import pathlib
import sys

CRATE = pathlib.Path(__file__).resolve().parents[2] / "crates" / "given_rows"

KERNEL = "a kernel text with \\n \\t \\r \\\\ \\xHH escaped"
NET = "a net text with \\n \\t \\r \\\\ \\xHH escaped"
READ = "what lex, parse and check answer: ok N=nodes, or LINE:COLUMN: NUMBER WORD"
CHECKED = "what reading and checking answer: ok, or NUMBER WORD and what it names"

# Each file, in the order of main: the place of the answer among the fields, what the answer is, what the rest is.
FILES = {
    "kernels.tsv": (0, READ, KERNEL),
    "guide.tsv": (0, READ, KERNEL),
    "lexer.tsv": (0, READ, KERNEL),
    "words.tsv": (0, "the words of the tokens, each number with its type", KERNEL),
    "parser.tsv": (0, READ, KERNEL),
    "pairs.tsv": (
        -1,
        "which of them is the operator of the whole of `a LEFT a RIGHT a`",
        "two binary operators, LEFT and RIGHT",
    ),
    "types.tsv": (0, READ, KERNEL),
    "trees.tsv": (0, "the typed expression of the one return", KERNEL),
    "repeats.tsv": (
        0,
        READ,
        "a kernel text in parts, escaped: how many times the second part stands, and the fourth; then the five parts",
    ),
    "nets.tsv": (0, CHECKED, NET),
    "nets2.tsv": (0, CHECKED, NET),
    "marked.tsv": (0, CHECKED, NET),
    "edited.tsv": (0, CHECKED, NET),
    "operations.tsv": (-1, "the result", "an operation, its first operand, its second or nothing"),
    "queues.tsv": (
        -1,
        "how many acts are made, what they put, the array, how many entries are left, the oldest that may execute or -",
        "the elements of an array, a queue as in the text of a net, acts with ; between two",
    ),
    "inputs.tsv": (
        0,
        "what reading the inputs answers: ok and each line printed anew with a slash after it, or NUMBER WORD and a line or name",
        "a net text and the text of its inputs, with \\n \\t \\r \\\\ \\xHH escaped",
    ),
    "lists.tsv": (0, "what the words spell, or usage", "a list of words, each after a tab"),
}


def lines(path):
    text = path.read_text(encoding="ascii")
    assert text.endswith("\n"), path
    return text[:-1].split("\n")


def answers():
    """The answers that stand in stdout, by file."""
    found, name = {}, None
    path = CRATE / "stdout"
    for line in lines(path) if path.exists() else []:
        if line.startswith("== ") and line[3:] in FILES:
            name = line[3:]
            found[name] = []
        else:
            found[name].append(line)
    return found


def split(folder):
    known = answers()
    (CRATE / "data").mkdir(exist_ok=True)
    for name, (place, _, rest) in FILES.items():
        if not (folder / name).exists():
            continue
        known[name], inputs = [], ["# " + rest]
        for line in lines(folder / name)[1:]:
            fields = line.split("\t")
            known[name].append(fields.pop(place))
            inputs.append("\t".join(fields))
        (CRATE / "data" / name).write_text("\n".join(inputs) + "\n", encoding="ascii")
    text = "".join(f"== {name}\n" + "".join(a + "\n" for a in known[name]) for name in FILES if name in known)
    (CRATE / "stdout").write_text(text, encoding="ascii")


def join(folder):
    folder.mkdir(parents=True, exist_ok=True)
    for name, found in answers().items():
        place, answer, rest = FILES[name]
        parts = [answer, rest] if place == 0 else [rest, answer]
        rows = ["# " + ", a tab, ".join(parts)]
        inputs = lines(CRATE / "data" / name)[1:]
        assert len(inputs) == len(found), name
        for line, given in zip(inputs, found):
            fields = line.split("\t")
            fields.insert(place if place == 0 else len(fields), given)
            rows.append("\t".join(fields))
        (folder / name).write_text("\n".join(rows) + "\n", encoding="ascii")


if __name__ == "__main__":
    if len(sys.argv) != 3 or sys.argv[1] not in ("split", "join"):
        sys.exit(__doc__)
    (split if sys.argv[1] == "split" else join)(pathlib.Path(sys.argv[2]))
