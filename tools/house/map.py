#!/usr/bin/env python3
"""Maps of the repository that are counted, and not written.

  map.py sizes                 lines of code, definitions and proofs, and mutants, of each crate
  map.py definitions FILE..    all that these files rest on: the definition files that a source file's contracts or a
                               definition file reach, each after those that it stands on, with their lines, and then
                               the Rust types and traits that these and the files cite, with where they stand
  map.py meaning [CRATE]       the definition files of a crate, or of all, with what their head comments say
  map.py words                 words of specs/ that have two definitions: in a crate, or in it and one below it
  map.py like NAME             the files that name a variant, a field or another word, by crate, with how often
  map.py groups [LINES]        how many groups of equations over kinds of units and acts there are, and their lines; each group
                               from so many lines on
  map.py proofs CRATE          the proof files of a crate, with what their first line says
  map.py counted [--write]     numbers of README.md and docs/ that are counted here, and differ; --write puts them right
  map.py names                 backticked names of README.md and docs/ that stand nowhere in the repository
  map.py sentences             sentences of more than 35 words outside tables and cells of tables of more than 400
                               characters in README.md and docs/, and documents that have too many words
"""
import collections
import itertools
import pathlib
import re
import subprocess
import sys

TOP = pathlib.Path(__file__).resolve().parents[2]
CRATES = TOP / "crates"


def count(paths):
    return sum(len(path.read_text().splitlines()) for path in paths)


def crate_sizes():
    """Each crate in the order of crates.txt, with its lines of code, of definitions and of proofs, and its mutants."""
    for line in (CRATES.parent / "crates.txt").read_text().splitlines():
        if line.startswith("#") or ":" not in line:
            continue
        name = line.split(":")[0].split()[0]
        crate = CRATES / name
        edits = sum(len(list(crate.glob(f"{folder}/*.edit"))) for folder in ("must-fail", "wrong"))
        parts = [count(crate.glob(f"{part}/**/*.{kind}")) for part, kind in
                 (("src", "rt"), ("specs", "antt"), ("proofs", "antt"))]
        yield name, [*parts, edits]


def sizes():
    print("| Crate | Code | Definitions | Proofs | Mutants |\n|---|---|---|---|---|")
    for name, parts in crate_sizes():
        print(f"| `{name}` | {' | '.join(f'{part:,}' for part in parts)} |")


def reached(text, ghost):
    """The files of specs/ of this repository that a file imports."""
    mark = r"^\s*ghost use" if ghost else r"^\s*(?:pub )?use"
    for found in re.finditer(mark + r" Rattle\.(\w+)\.specs\.([\w.]+)", text, re.M):
        crate, path = found.groups()
        parts = [part for part in path.split(".") if part]
        for size in range(len(parts), 0, -1):
            file = CRATES / crate / "specs" / pathlib.Path(*parts[:size]).with_suffix(".antt")
            if file.exists():
                yield file
                break


def dependencies():
    """By crate the crates of this repository that it names in crates.txt."""
    below = {}
    for line in (CRATES.parent / "crates.txt").read_text().splitlines():
        if not line.startswith("#") and ":" in line:
            name, deps = line.split(":", 1)
            below[name.split()[0]] = deps.split()
    return {name: [dep for dep in deps if dep in below] for name, deps in below.items()}


def defined(text):
    """The words that a definition file gives a meaning; fields of records aside."""
    mutual = False
    for line in text.splitlines():
        if line[:1] not in ("", " ", "-"):
            mutual = line in ("mutual", "abbrev mutual")
        indent = r" *" if mutual else ""
        found = re.match(indent + r"(?:abbrev pub|pub abbrev|pub record|pub data|pub) ([A-Za-z]\S*)", line)
        if found and found.group(1) not in ("mod", "use", "record", "data"):
            yield found.group(1)


def words():
    """Definitions of one name, of which one stands in a crate and the other in it or in a crate below it."""
    below = dependencies()

    def all_below(name):
        found = set()
        left = list(below[name])
        while left:
            dep = left.pop()
            if dep not in found:
                found.add(dep)
                left += below[dep]
        return found

    places = {}
    for name in below:
        for file in sorted((CRATES / name).glob("specs/**/*.antt")):
            for word in defined(file.read_text()):
                places.setdefault(word, []).append((name, file))
    for word, found in sorted(places.items()):
        for at, (name, file) in enumerate(found):
            for other, second in found[at + 1:]:
                if second != file and (other == name or other in all_below(name) or name in all_below(other)):
                    print(f"{word}: {file.relative_to(CRATES)}, {second.relative_to(CRATES)}")


ITEM = r"^\s*pub (?:struct|enum|trait|type) "


def item(file, name):
    """The text of a type or trait that a source file defines, up to its closing brace, or None."""
    lines = file.read_text().splitlines()
    for at, line in enumerate(lines):
        if re.match(ITEM + name + r"\b", line):
            depth, taken = 0, []
            for line in lines[at:]:
                taken.append(line.split("//")[0])
                depth += line.count("{") - line.count("}")
                if depth == 0 and ("}" in line or ";" in line):
                    break
            return "\n".join(taken)
    return None


def defining(crate, name):
    """The source file of a crate that defines a type or trait of this name, or None."""
    for file in sorted((CRATES / crate).glob("src/**/*.rt")):
        if item(file, name):
            return file
    return None


def imported(file):
    """By name, the crate from which a source file has a type or trait."""
    own = file.relative_to(CRATES).parts[0]
    found = {}
    for crate, names in re.findall(r"^(?:pub )?use (\w+)::([^;]+);", file.read_text(), re.M):
        for name in re.findall(r"\b[A-Z]\w*", names):
            found[name] = own if crate in ("crate", "super", "self") else crate
    return found


def cited(file, text):
    """The types and traits of this repository that a piece of a source file cites."""
    own = file.relative_to(CRATES).parts[0]
    known = imported(file)
    for name in sorted(set(re.findall(r"\b[A-Z]\w*", text))):
        crate = known.get(name, own)
        if (CRATES / crate).is_dir():
            at = file if item(file, name) else defining(crate, name)
            if at:
                yield at, name


def declared(text):
    """The types and traits that a definition file cites."""
    for crate, path in re.findall(r"^(?:pub )?use Rattle\.(\w+)\.specs\.declared\.([\w.]+)", text, re.M):
        name = next((part for part in path.split(".") if part[:1].isupper()), None)
        at = name and (CRATES / crate).is_dir() and defining(crate, name)
        if at:
            yield at, name


def rests_on(sources):
    """The definition files that these files rest on, each after those that it stands on, and the types and traits with their lines."""
    order, types = [], {}

    def visit_type(file, name):
        if (file, name) not in types:
            text = item(file, name)
            types[file, name] = len(text.splitlines())
            for found in cited(file, text.split("{", 1)[-1]):
                visit_type(*found)
            uses = re.findall(r"^\s*ghost use [^;]+;", file.read_text(), re.M)
            for use in uses:
                if set(re.findall(r"\w+", use.rpartition(".")[2])) & set(re.findall(r"\w+", text)):
                    for below in reached(use, True):
                        visit(below)

    def visit(file):
        if file in order or file.name == "Lib.antt":
            return
        text = file.read_text()
        for below in sorted(reached(text, False)):
            if below != file:
                visit(below)
        if file not in order:
            order.append(file)
            for found in declared(text):
                visit_type(*found)

    for source in map(pathlib.Path.resolve, map(pathlib.Path, sources)):
        text = source.read_text()
        if source.suffix == ".antt":
            visit(source)
        else:
            for file in reached(text, True):
                visit(file)
            signatures = re.sub(r"^(?:pub )?use [^;]+;", "", text, flags=re.M)
            for found in cited(source, signatures):
                visit_type(*found)
    return order, types


def definitions(sources):
    order, types = rests_on(sources)
    print("| Definitions | Lines |\n|---|---|")
    for file in order:
        print(f"| `{file.relative_to(CRATES)}` | {count([file])} |")
    by_file = collections.defaultdict(list)
    for file, name in sorted(types):
        by_file[file].append(name)
    print("\n| Source file | Types and traits |\n|---|---|")
    for file, names in sorted(by_file.items()):
        print(f"| `{file.relative_to(CRATES)}` | {', '.join(f'`{name}`' for name in names)} |")
    print(f"\n{len(order)} definition files, {count(order):,} lines; {len(types)} types and traits in {len(by_file)} source "
          f"files, {sum(types.values()):,} lines")


def tracked(*kinds):
    """The files of the repository that git knows, of these last names."""
    names = subprocess.run(["git", "ls-files", "-co", "--exclude-standard"], cwd=TOP, capture_output=True, text=True, check=True).stdout
    return [TOP / name for name in names.splitlines() if name.endswith(kinds) and (TOP / name).is_file()]


def like(name):
    """The files that name a word: as it is written, or as a part of a longer name in lower case (`Cmerge`: `cmerge_stays`)."""
    lower = re.sub(r"(?<=[a-z0-9])(?=[A-Z])", "_", name).lower()
    pattern = re.compile(rf"\b{name}\b|(?:\b|_){lower}(?:\b|_)")
    found = collections.defaultdict(list)
    for file in tracked(".rt", ".antt", ".rt.txt", ".antt.txt", ".edit", ".py", ".sh"):
        times = len(pattern.findall(file.read_text(errors="replace")))
        if times:
            parts = file.relative_to(TOP).parts
            found[parts[1] if parts[0] == "crates" else parts[0]].append((times, file))
    for crate, files in sorted(found.items()):
        print(crate)
        for times, file in files:
            print(f"    {times:4}  {file.relative_to(TOP)}")
    print(f"{sum(map(len, found.values()))} files in {len(found)} crates or folders")


def variants(name, file):
    """The variants of an enum of net_types."""
    text = (CRATES / "net_types" / "src" / file).read_text()
    body = re.search(rf"^pub enum {name} {{\n(.*?)^}}", text, re.M | re.S).group(1)
    return set(re.findall(r"^    (\w+)\b", body, re.M))


def equation_groups():
    """Each group of equations that go through kinds of units or acts: where it begins, its name, how many lines it has, and how many
    of these have the right side that most of them have. A group has at least four equations, in each of which such a variant stands."""
    known = variants("Unit", "net.rt") | variants("Act", "firing.rt")
    one = re.compile(r"^(\s*)([^\s:()]+)((?: [^=\n]*)?) = (.*)$")
    for file in tracked("antt"):
        lines = file.read_text().splitlines()
        rows = ((at, one.match(line)) for at, line in enumerate(lines, 1) if not re.match(r"\s*(let|where|in)\b", line))
        rows = ((at, row) for at, row in rows if row and known & set(re.findall(r"\w+", row.group(3))))
        for (_, name), group in itertools.groupby(rows, key=lambda pair: (pair[1].group(1), pair[1].group(2))):
            group = list(group)
            if len(group) >= 4:
                rights = collections.Counter(row.group(4) for _, row in group)
                yield file, group[0][0], name, len(group), rights.most_common(1)[0][1]


def groups(least):
    """Prints how many groups of equations over kinds and acts there are, and each that has at least so many lines."""
    found = list(equation_groups())
    for file, at, name, many, alike in sorted(found, key=lambda row: -row[3]):
        if many >= least:
            print(f"{many:4} {alike:4}  {file.relative_to(TOP)}:{at} {name}")
    print(f"{len(found)} groups of equations over kinds and acts have {sum(row[3] for row in found):,} lines, "
          f"{sum(row[4] for row in found):,} with the right side that is most common in their group")


def proofs(crate):
    for file in sorted((CRATES / crate).glob("proofs/**/*.antt")):
        if file.name != "Lib.antt":
            lines = file.read_text().splitlines()
            first = next((line[2:].strip() for line in lines[:3] if line.startswith("--")), "")
            print(f"| `{file.relative_to(CRATES / crate / 'proofs')}` | {len(lines)} | {first} |")


def meaning(crates):
    """Each definition file with the first sentence of the comment at its head."""
    for crate in crates:
        for file in sorted((CRATES / crate).glob("specs/**/*.antt")):
            if file.name != "Lib.antt":
                lines = file.read_text().splitlines()
                comments = itertools.takewhile(lambda line: line.startswith("--"), lines)
                head = " ".join(line[2:].strip() for line in comments)
                said = re.split(r"(?<=[.:]) (?=[A-Z])", head)
                print(f"{file.relative_to(CRATES)}: {' '.join(said[:2 if said[0].startswith('Private') else 1])}")


# How many words a document may have, and all of docs/.
MOST_WORDS = {"README.md": 700, "docs/TIMES.md": 2_000, "docs": 45_000}
# Names of the shell that documents may cite.
STANDARD = {"xargs"}


def documents():
    return [TOP / "README.md", *sorted((TOP / "docs").glob("*.md"))]


def prose(file):
    """The lines of a document outside its blocks of code, with their numbers."""
    is_code = False
    for number, line in enumerate(file.read_text().splitlines(), 1):
        if line.startswith("```"):
            is_code = not is_code
        elif not is_code and not line.startswith("    "):
            yield number, line


def names():
    """Backticked names (of files, crates, functions, words and options) that no other file of the repository has."""
    texts = [file.read_text(errors="replace") for file in tracked("") if file not in documents() and file.suffix not in (".svg", ".png")]
    known = set(re.findall(r"\w+", "\n".join(texts)))
    known |= {part for file in tracked("") for part in re.findall(r"\w+", str(file.relative_to(TOP)))}
    missing = 0
    for file in documents():
        for number, line in prose(file):
            for text in re.findall(r"`([^`]+)`", line):
                if not re.fullmatch(r"(?:--)?\w[\w-]*(?:(?:::|[./])\w[\w-]*)*", text):
                    continue
                for word in re.findall(r"[A-Za-z_]\w*", text) if text not in STANDARD else []:
                    if word not in known:
                        print(f"{file.relative_to(TOP)}:{number}: `{text}`: {word}")
                        missing += 1
                        break
    sys.exit(1 if missing else 0)


def sentences():
    found = []
    for file in documents():
        for number, line in prose(file):
            at = f"{file.relative_to(TOP)}:{number}"
            if line.startswith("|"):
                cells = [cell.strip() for cell in line.strip().strip("|").split(" | ")]
                found += [f"{at}: a cell of {len(cell)} characters" for cell in cells if len(cell) > 400]
            else:
                said = re.split(r"(?<=[.!?])[\"')*]*\s+", line.strip())
                found += [f"{at}: a sentence of {len(it.split())} words: {it[:60]}" for it in said if len(it.split()) > 35]
    sizes = {str(file.relative_to(TOP)): len(file.read_text().split()) for file in documents()}
    sizes["docs"] = sum(sizes.values()) - sizes["README.md"]
    found += [f"{name}: {sizes[name]:,} words, above {most:,}" for name, most in MOST_WORDS.items() if sizes[name] > most]
    print("".join(f"{it}\n" for it in found), end="")
    sys.exit(1 if found else 0)


def number_in(text, pattern, values, file):
    """The text with the values, in turn, in place of what the groups of a pattern find; the pattern stands in it."""
    found = list(re.finditer(pattern, text))
    if not found:
        sys.exit(f"{file.name}: nothing like {pattern}")
    for match in reversed(found):
        for group in reversed(range(1, len(values) + 1)):
            text = text[:match.start(group)] + values[group - 1] + text[match.end(group):]
    return text


def counted_documents():
    """Each document that has counted numbers, with its text as it has to be."""
    def weight(source):
        order, types = rests_on([CRATES / source])
        return [str(len(order)), f"{count(order):,}", str(len(types)), f"{sum(types.values()):,}"]

    readme, map_page = TOP / "README.md", TOP / "docs" / "ARCHITECTURE.md"
    theorem, tested = TOP / "docs" / "THEOREM.md", TOP / "docs" / "TESTED.md"
    host = [f"{count([CRATES / 'el_io' / 'src' / 'host.rt']):,}"]
    edge = r"`el_io/src/host\.rt` \(([\d,]+) lines\)"
    text = number_in(readme.read_text(), edge, host, readme)
    text = number_in(text, r"(\d+) definition files, ([\d,]+) lines", weight("elastic_top/src/call.rt")[:2], readme)
    text = number_in(text, r"The short way is `Good`: (\d+) files, ([\d,]+) lines", weight("kernel_compile/specs/Goods.antt")[:2], readme)
    yield readme, text
    parts = [part for _, part in crate_sizes()]
    all_sizes = [str(len(parts)), *(f"{sum(column):,}" for column in zip(*parts))]
    pattern = r"(\d+) crates have ([\d,]+) lines of code, ([\d,]+) of definitions and ([\d,]+) of proofs, and ([\d,]+) mutants"
    text = number_in(map_page.read_text(), pattern, all_sizes, map_page)
    yield map_page, text
    text = number_in(theorem.read_text(), edge, host, theorem)
    for source in re.findall(r"^\| [^|]* \| `([\w/.]+)`(?: of [^|]*)? \| \d+, [\d,]+ \|", text, re.M):
        row = r"\| `" + re.escape(source) + r"` \| (\d+), ([\d,]+) \| (\d+), ([\d,]+) \|"
        text = number_in(text, row, weight(source), theorem)
    yield theorem, text
    changing = TOP / "docs" / "CHANGING.md"
    found = list(equation_groups())
    tally = [f"{number:,}" for number in (len(found), sum(row[3] for row in found), sum(row[4] for row in found))]
    pattern = r"([\d,]+) groups of equations over kinds and acts have ([\d,]+) lines, ([\d,]+) of them"
    yield changing, number_in(changing.read_text(), pattern, tally, changing)
    edits = [str(len(list(CRATES.glob("*/must-fail/*.edit"))))]
    yield tested, number_in(tested.read_text(), r"the gate tries the (\d+) of `must-fail/`", edits, tested)


def counted(is_written):
    """Compares the counted numbers of the documents, and puts them right where that is asked for."""
    differ = 0
    for file, text in counted_documents():
        old = file.read_text()
        for was, now in zip(old.splitlines(), text.splitlines()):
            if was != now:
                print(f"{file.relative_to(TOP)}: {was.strip()[:150]}\n    counted: {now.strip()[:150]}")
        differ += old != text
        if is_written:
            file.write_text(text)
    sys.exit(1 if differ and not is_written else 0)


if __name__ == "__main__":
    given = sys.argv[1:]
    plain = {"sizes": sizes, "words": words, "names": names, "sentences": sentences}
    if given[:1] == ["counted"] and given[1:] in ([], ["--write"]):
        counted(len(given) == 2)
    elif len(given) == 1 and given[0] in plain:
        plain[given[0]]()
    elif len(given) > 1 and given[0] == "definitions":
        definitions(given[1:])
    elif len(given) == 2 and given[0] == "like":
        like(given[1])
    elif given[:1] == ["groups"] and len(given) < 3 and all(word.isdigit() for word in given[1:]):
        groups(int(given[1]) if len(given) == 2 else sys.maxsize)
    elif given == ["meaning"]:
        meaning(dependencies())
    elif len(given) == 2 and given[0] == "meaning" and (CRATES / given[1]).is_dir():
        meaning(given[1:])
    elif len(given) == 2 and given[0] == "proofs" and (CRATES / given[1]).is_dir():
        proofs(given[1])
    else:
        sys.exit(__doc__)
