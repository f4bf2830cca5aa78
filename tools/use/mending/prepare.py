"""C made ready for pycparser: comments out, headers out or in, conditions and macros by the C compiler, names of numbers kept.

Lines keep their numbers: what the compiler moves it says by its line markers, which pycparser reads."""
import pathlib
import re
import shutil
import subprocess

from explaining.source import constant_type

HEADERS = {"stdint.h", "stdbool.h", "stddef.h", "limits.h", "inttypes.h", "string.h", "stdlib.h", "stdio.h", "assert.h", "sys/types.h"}
TOKEN = re.compile(r"\"(?:\\.|[^\"\\\n])*\"|'(?:\\.|[^'\\\n])*'|/\*.*?\*/|//[^\n]*", re.S)
DIRECTIVE = re.compile(r"^[ \t]*#[ \t]*(\w+)[ \t]*((?:[^\n]*\\\n)*[^\n]*)", re.M)
COMPILERS = ("cc", "gcc", "clang")
GNU = ("__attribute__", "__restrict", "__restrict__", "__inline", "__inline__", "__volatile__", "__const", "__extension__")


class Refused(Exception):
    """What cannot be mended: its line, or 0, why, and what to do."""

    def __init__(self, line, why, remedy=""):
        super().__init__(why)
        self.line, self.why, self.remedy = line, why, remedy


class Prepared:
    """A text for pycparser: the text, the names of numbers in order with their spelling and line, and the comments by line."""

    def __init__(self, path, notes):
        self.path, self.notes = pathlib.Path(path), notes
        self.numbers, self.comments, self.compiler = {}, [], next(filter(None, map(shutil.which, COMPILERS)), None)
        try:
            text = self.path.read_text(encoding="utf-8-sig")
        except (OSError, UnicodeDecodeError) as wrong:
            raise Refused(0, f"{path} cannot be read: {getattr(wrong, 'strerror', None) or 'it is no text'}") from wrong
        text = text.replace("\r\n", "\n")
        text = self.without_comments(text)
        text = self.with_headers(text, set())
        text = self.with_conditions(text)
        self.text = self.with_macros(text)

    # ---- comments

    def without_comments(self, text):
        """The text with blanks for comments, which are kept with their lines."""
        def blank(found):
            part = found.group()
            if part[0] in "\"'":
                return part
            line = text.count("\n", 0, found.start()) + 1
            before = text[text.rfind("\n", 0, found.start()) + 1:found.start()]
            if not before.lstrip().startswith("#"):
                self.keep_comment(part, line)
            return re.sub(r"[^\n]", " ", part)
        return TOKEN.sub(blank, text)

    def keep_comment(self, part, line):
        """A comment as lines that begin with `//`, at its own line and those behind."""
        inner = part[2:] if part.startswith("//") else part[2:-2]
        for at, words in enumerate(inner.split("\n")):
            words = words.strip().lstrip("*").strip()
            if words.strip("*-=/ "):
                self.comments.append((line + at, "// " + words.encode("ascii", "replace").decode()))

    # ---- headers

    def with_headers(self, text, seen):
        """The text without headers of the library, and with the text of own ones in their place."""
        def put(found):
            line = text.count("\n", 0, found.start()) + 1
            word, rest = found.group(1), found.group(2).strip()
            if word == "pragma":
                self.notes.add(line, f"`#pragma {rest}` left away")
                return ""
            if word != "include":
                return found.group()
            name = rest.strip("<>\" ")
            own = self.path.parent / name
            if rest.startswith('"') and own.is_file():
                if own in seen:
                    return ""
                inner = Prepared.__new__(Prepared)
                inner.path, inner.notes, inner.comments, inner.compiler = own, self.notes, [], self.compiler
                written = inner.with_headers(inner.without_comments(own.read_text().replace("\r\n", "\n")), seen | {own})
                self.notes.add(line, f"the text of `{name}` put in place of its `#include`")
                return f'# 1 "{name}"\n{written}\n# {line + 1} "{self.path.name}"'
            if name not in HEADERS:
                raise Refused(line, f"`{name}` is not read", "put what is used of it into the text")
            if name != "stdint.h":
                self.notes.add(line, f"`#include {rest}` left away")
            return ""
        return DIRECTIVE.sub(put, text)

    # ---- conditions

    def with_conditions(self, text):
        """The text without what `#if` and the like leave away; the compiler tells which lines stay."""
        found = DIRECTIVE.search(text)
        if not found or not any(it.group(1) in ("if", "ifdef", "ifndef") for it in DIRECTIVE.finditer(text)):
            return text
        lines, marked, at = text.split("\n"), [], 0
        while at < len(lines):
            line, first = lines[at], at
            while line.endswith("\\") and at + 1 < len(lines):
                at += 1
                line += "\n" + lines[at]
            directive = re.match(r"[ \t]*#[ \t]*(\w+)", line)
            if directive and not directive.group(1).isdigit():
                marked.append(line)
            if not directive or directive.group(1) in ("define", "undef") or directive.group(1).isdigit():
                marked.append(f"mend_line_{first}_")
            at += 1
        stays = {int(it) for it in re.findall(r"mend_line_(\d+)_", self.compiled("\n".join(marked), 1, "#if"))}
        self.notes.add(1, "the parts that `#if` and the like leave away are left away")
        keep, result = False, []
        for at, line in enumerate(lines):
            continued = at and lines[at - 1].endswith("\\")
            keep = keep if continued else at in stays
            result.append(line if keep else "")
        return "\n".join(result)

    def compiled(self, text, line, what):
        """What the C compiler makes of a text."""
        if not self.compiler:
            raise Refused(line, f"`{what}` needs a C compiler, and there is none (cc, gcc, clang)", "write it out by hand")
        ran = subprocess.run([self.compiler, "-E", "-x", "c", "-"], input=text, capture_output=True, text=True, check=False)
        if ran.returncode:
            raise Refused(line, f"the C compiler refuses the text: {ran.stderr.strip().splitlines()[0]}")
        return ran.stdout

    # ---- macros

    def with_macros(self, text):
        """The text with macros written out, but names of numbers, which stay names."""
        text = re.sub(r"\\\n", " \\\n", text)
        defines = [it for it in DIRECTIVE.finditer(text) if it.group(1) in ("define", "undef")]
        again = {name for name, count in counted(re.match(r"\w*", it.group(2)).group() for it in defines).items() if count > 1}
        self.spelled, rest = {}, False
        for it in defines:
            name, value = re.match(r"(\w*)(.*)", it.group(2), re.S).groups()
            value = " ".join(value.replace("\\\n", " ").split())
            line = text.count("\n", 0, it.start()) + 1
            if it.group(1) == "define" and name not in again and self.is_number(name, value):
                self.numbers[name] = (value, line)
            elif value or it.group(1) == "undef":
                rest = True
        kept = set(self.numbers)

        def out(found):
            name = re.match(r"\w*", found.group(2)).group() if found.group(1) in ("define", "undef") else ""
            if found.group(1).isdigit():
                return found.group()
            return "" if name in kept or found.group(1) not in ("define", "undef") else found.group()
        for it in defines:
            name, parameters = re.match(r"(\w*)(\([^)]*\))?", it.group(2)).groups()
            if name not in kept:
                line = text.count("\n", 0, it.start()) + 1
                self.notes.add(line, f"the macro `{name}{parameters or ''}` written out where it is used")
        text = re.sub(DIRECTIVE, lambda it: out(it) + "\n" * (it.group().count("\n") if not out(it) else 0), text)
        gnu = [word for word in GNU if re.search(rf"\b{word}\b", text)]
        if rest or gnu or "_Pragma" in text:
            extra = "".join(f"#define {word}{'(x)' if word == '__attribute__' else ''}\n" for word in gnu) + "#define _Pragma(x)\n"
            text = self.compiled(extra + f'# 1 "{self.path.name}"\n' + text, 1, "a macro")
        return text.replace("\\\n", "\n")

    def is_number(self, name, value):
        """Whether a macro is a bare number, or an expression in parentheses of numbers and of such names."""
        if re.fullmatch(r"[0-9]\w*", value):
            return bool(constant_type(value))
        if value in self.numbers:
            return True
        inner = re.sub(r"\b0[xX][0-9a-fA-F]+[uUlL]*\b|\b\d+[uUlL]*\b", "1", value)
        names = set(re.findall(r"[A-Za-z_]\w*", inner))
        marks = re.fullmatch(r"[\s()+\-*/%<>&|^~!1?:]*", re.sub(r"[A-Za-z_]\w*", "1", inner).replace("==", "").replace("!=", ""))
        return bool(names <= set(self.numbers) and marks and self.is_grouped(value))

    @staticmethod
    def is_grouped(value):
        """Whether one pair of parentheses is around the whole."""
        depth = 0
        for at, char in enumerate(value):
            depth += (char == "(") - (char == ")")
            if not depth:
                return at == len(value) - 1 and value.startswith("(")
        return False


def counted(names):
    found = {}
    for name in names:
        found[name] = found.get(name, 0) + 1
    return found
