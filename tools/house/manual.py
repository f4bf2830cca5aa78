#!/usr/bin/env python3
"""The manual page and the completions of elastic, made from one table.

    tools/house/manual.py write              writes docs/elastic.1, tools/use/completion/elastic.bash and tools/use/completion/_elastic
    tools/house/manual.py check [PROGRAM]    compares them with the table, and the table with the words that a program takes: one row for
                                       each command with each option, with each end of its range, and for words that are none

Completions are read by `. tools/use/completion/elastic.bash`, or, for zsh, from a folder of `fpath`."""
import pathlib
import re
import subprocess
import sys
from collections import namedtuple

TOP = pathlib.Path(__file__).resolve().parents[2]
Option = namedtuple("Option", "word value least most text")
Command = namedtuple("Command", "word files options text")

FIRINGS = 400_000_000
DELAY = Option("--delay", "LIST", None, None,
               "cycles that a result takes, by the class of its unit, as `mul=7,lsq=3`: `logic` (by default "
               "0), `mul` (4), `div` (36), `read` (2) and `lsq` (1); each from 0, `lsq` from 1, to 1,000")
SLOTS = Option("--slots", "N", 1, 1024, "how many tokens a channel holds; by default 2")
DEPTH = Option("--depth", "N", 1, 1000,
               "how many units that work or choose may be in a row without a delay; with it a loop has a delay where it goes back, "
               "not on each of its channels, and any other channel gets one only where a row would be longer; the default is a delay on "
               "each channel of a loop")
FORWARD = Option("--forward", None, None, None, "a load may take the data of a waiting store to the same element; by default it waits for the store")
WRAP = Option("--wrap", None, None, None,
              "a signed result of `+`, `-`, `*` and `<<` that is out of range wraps, and is not undefined; the "
              "circuit is the same with it and without")
WORKERS = Option("--workers", "W", 1, 64, "runs the circuit by so many workers, each in a thread of its own; the output is the same, but for the "
                 "schedule of --log; not with --cycles")
LIMIT = Option("--limit", "F", 1, FIRINGS,
               "the most firings; by default 8,000,000, and with --log or --workers at most 16,000,000")
COUNT = Option("--count", None, None, None, "prints `# firings F`, of `ref` `# turns T`, after the results")
CYCLES = Option("--cycles", None, None, None, "prints `# cycles C` after the results")
LOG = Option("--log", None, None, None, "prints the line `%%` and the firings, one a line, which `replay` reads")
AT = Option("--at", "K", 0, FIRINGS, "after how many firings the state is saved; by default 0")
TURNS = Option("--turns", "T", 1, FIRINGS, "the most turns; by default 8,000,000")
OPTIONS = (DEPTH, DELAY, SLOTS, FORWARD, WRAP, WORKERS, LIMIT, COUNT, CYCLES, LOG, TURNS, AT)

COMMANDS = (
    Command("compile", ("KERNEL",), (DEPTH, DELAY, SLOTS, FORWARD, WRAP), "prints the circuit of a kernel, as a netlist"),
    Command("go", ("KERNEL", "INPUTS"), (DEPTH, DELAY, SLOTS, FORWARD, WRAP, WORKERS, LIMIT, COUNT, CYCLES),
            "prints the circuit of a kernel, the line `%%`, and what the circuit gives on the inputs"),
    Command("ref", ("KERNEL", "INPUTS"), (WRAP, TURNS, COUNT), "runs a kernel as C, without a circuit, and prints the results"),
    Command("run", ("NETLIST", "INPUTS"), (WORKERS, LIMIT, COUNT, CYCLES, LOG), "runs a netlist by cycles or by workers, and prints the results"),
    Command("replay", ("NETLIST", "INPUTS", "SCHEDULE"), (),
            "makes the firings of a schedule, and prints the results or the next firing"),
    Command("upgrade", ("NETLIST",), (), "checks a netlist, and prints it in version 2"),
    Command("save", ("NETLIST", "INPUTS"), (AT,), "prints the state of a netlist on the inputs after some firings, or at rest, as a snapshot"),
    Command("resume", ("NETLIST", "SNAPSHOT"), (LIMIT, COUNT), "goes on from a snapshot that `save` printed, and prints the results, as `run` does"),
    Command("bench", ("NUMBER",), (), "runs the circuit of a kernel that lies in the program, on inputs that a number below 2^64 gives, and prints "
            "its firings, its cycles and a sum"),
)
STATUSES = (
    (0, "the whole text is on the output"), (1, "the words are no command"), (2, "a file cannot be read"),
    (3, "the output did not take all bytes"), (4, "the kernel is refused: `FILE:LINE:COLUMN: NUMBER WORD`"),
    (5, "the netlist is refused"),
    (6, "the inputs are refused"), (7, "the schedule is refused"), (8, "the run has more firings than the limit"),
    (9, "the run ended and the exit had not fired"), (10, "an address lay past its array"), (11, "out of memory"),
    (12, "a file is too long"), (13, "an operation of the kernel is undefined on these inputs"),
    (14, "the kernel was not over within the turns"), (15, "the snapshot is refused"),
)
NONE = (["help"], ["--help"], ["-h"], [], ["bench"], ["bench", "x"], ["bench", "1", "2"], ["bench", str(2**64)], ["save", "n"], ["resume", "n", "p", "x"], ["go", "k"],
        ["go", "k", "i", "x"],
        ["Go", "k", "i"], ["compile", "k", "--slots"], ["compile", "k", "--slots", "1", "--slots", "1"],
        ["compile", "k", "--forward=1"],
        ["compile", "k", "--delay", "add=1"], ["compile", "k", "--delay", "lsq=0"], ["compile", "k", "--delay", "mul=1001"],
        ["run", "n", "i", "--cycles", "--workers", "2"], ["go", "k", "i", "--workers", "2", "--limit", "16000001"])


# ---- the texts

def synopsis(command):
    """The words of a command with its options."""
    options = [f"[{it.word}{' ' + it.value if it.value else ''}]" for it in command.options]
    return " ".join([command.word, *command.files, *options])


def roff(text):
    """A text of the table in the manual's markup: what stands between backquotes is bold."""
    parts = text.replace("\\", "\\e").replace("-", "\\-").split("`")
    return "".join(f"\\fB{part}\\fR" if at % 2 else part for at, part in enumerate(parts))


def manual():
    """The manual page."""
    lines = ['.\\" Made by tools/house/manual.py: change its table, and say `tools/house/manual.py write`.',
             '.TH ELASTIC 1 "" "elastic" "User Commands"',
             ".SH NAME", "elastic \\- compiles C kernels over integers to elastic circuits, and runs them", ".SH SYNOPSIS"]
    for at, command in enumerate(COMMANDS):
        lines += ([".br"] if at else []) + [f"\\fBelastic {command.word}\\fR " + roff(synopsis(command)[len(command.word) + 1:])]
    lines += [".SH DESCRIPTION",
              "A kernel is one function of C99 over integers. Its circuit is made of units that pass tokens over channels,",
              "and is printed as a netlist. Inputs are lines", ".IR \"NAME \" = \" n n ..\" ,",
              "one for each scalar and each array.",
              ".SS Commands"]
    for command in COMMANDS:
        lines += [".TP", f"\\fB{command.word}\\fR " + " ".join(f"\\fI{it}\\fR" for it in command.files), roff(command.text) + "."]
    lines.append(".SH OPTIONS")
    for option in OPTIONS:
        owners = ", ".join(command.word for command in COMMANDS if option in command.options)
        value = f" \\fI{option.value}\\fR" if option.value else ""
        reach = f" From {option.least:,} to {option.most:,}." if option.least is not None else ""
        lines += [".TP", f"\\fB{roff(option.word)}\\fR{value}", f"{roff(option.text)}.{reach} Of {owners}."]
    lines += ["",
              "Options and files come in any order after the command, each option at most once. A value is the next word, or "
              "comes",
              "after", ".BR = .", "After a word", ".B \\-\\-", "all words are files.", ".SH EXIT STATUS"]
    for number, text in STATUSES:
        lines += [".TP", f".B {number}", roff(text) + "."]
    lines += [".PP", "At every status but 0 one line is written to the error output; at every status but 0 and 3 nothing is written to the output.",
              ".SH EXAMPLES", ".nf",
              "elastic go examples/hist/kernel.c examples/hist/inputs.txt \\-\\-depth 16 \\-\\-count \\-\\-cycles",
              "elastic compile my.c \\-\\-depth 16 > my.net && elastic run my.net my.txt",
              "elastic go my.c my.txt 2> error.txt || tools/use/explain.py < error.txt", ".fi", ".SH SEE ALSO",
              "docs/GUIDE.md, docs/FORMATS.md; tools/use/explain.py says what an error line means."]
    return "\n".join(lines + [""])


def bash():
    """The completion for bash."""
    cases = "\n".join(f'    {it.word}) options="{" ".join(option.word for option in it.options)}" ;;' for it in COMMANDS)
    valued = "|".join(option.word for option in OPTIONS if option.least is not None)
    return f"""# Completion of elastic for bash, made by tools/house/manual.py: change its table, and say `tools/house/manual.py write`.
_elastic() {{
  local current=${{COMP_WORDS[COMP_CWORD]}} before=${{COMP_WORDS[COMP_CWORD - 1]}} options=
  COMPREPLY=()
  if [ "$COMP_CWORD" -eq 1 ]; then
    COMPREPLY=($(compgen -W "{' '.join(it.word for it in COMMANDS)}" -- "$current"))
    return
  fi
  case $before in
    {valued}) return ;;
    --delay) compopt -o nospace 2> /dev/null; COMPREPLY=($(compgen -W "logic= mul= div= read= lsq=" -- "$current")); return ;;
  esac
  case ${{COMP_WORDS[1]}} in
{cases}
  esac
  if [[ $current == -* ]]; then
    COMPREPLY=($(compgen -W "$options" -- "$current"))
  else
    compopt -o filenames 2> /dev/null
    COMPREPLY=($(compgen -f -- "$current"))
  fi
}}
complete -F _elastic elastic
"""


def quoted(text):
    """A text within a zsh description."""
    return text.replace("`", "").replace("'", "'\\''").replace("[", "\\[").replace("]", "\\]").replace(":", "\\:")


def zsh_option(option):
    """An option as zsh's `_arguments` reads it."""
    text = quoted(re.split("[;:]", option.text)[0])
    return f"'{option.word}[{text}]{f':{option.value}: ' if option.value else ''}'"


def zsh():
    """The completion for zsh."""
    commands = "\n".join(f"        '{it.word}:{quoted(it.text)}'" for it in COMMANDS)
    cases = []
    for command in COMMANDS:
        words = [zsh_option(it) for it in command.options]
        words += [f"'{at}:{name}:{'' if name == 'NUMBER' else '_files'}'" for at, name in enumerate(command.files, 1)]
        cases.append(f"        {command.word}) _arguments {' '.join(words)} ;;")
    return f"""#compdef elastic
# Completion of elastic for zsh, made by tools/house/manual.py: change its table, and say `tools/house/manual.py write`.
_elastic() {{
  local state
  local -a commands
  _arguments -C '1:command:->command' '*::word:->words'
  case $state in
    command)
      commands=(
{commands}
      )
      _describe command commands ;;
    words)
      case $words[1] in
{chr(10).join(cases)}
      esac ;;
  esac
}}
_elastic "$@"
"""


FILES = {"docs/elastic.1": manual, "tools/use/completion/elastic.bash": bash, "tools/use/completion/_elastic": zsh}


# ---- the rows

def takes(program, words):
    """Whether the words are a command: the files that they name are not there, so a command ends with status 2, or 0 where it names none."""
    return subprocess.run([program, *words], cwd=TOP / "docs", capture_output=True, check=False).returncode in (0, 2)


def rows():
    """Lists of words, and whether each is a command."""
    for command in COMMANDS:
        words = [command.word, *("1" if name == "NUMBER" else f"no/{name}" for name in command.files)]
        yield words, True
        for option in OPTIONS:
            values = [option.least, option.most] if option.least is not None else ["mul=1,lsq=1"] if option.value else [None]
            for value in values:
                yield words + [option.word] + ([] if value is None else [str(value)]), option in command.options
            if option in command.options and option.least is not None:
                yield words + [option.word, str(option.least - 1)], False
                yield words + [option.word, str(option.most + 1)], False
    for words in NONE:
        yield words, False


def check(program):
    """What differs, in lines."""
    wrong = [f"{name}: not what the table makes; say tools/house/manual.py write" for name, made in FILES.items()
             if not (TOP / name).exists() or (TOP / name).read_text() != made()]
    tried = list(rows()) if program else []
    wrong += [f"elastic {' '.join(words)}: {'is no command' if wanted else 'is a command'}" for words, wanted in tried
              if takes(program, words) != wanted]
    print(f"manual.py: 3 texts and {len(tried)} rows of words, {len(wrong)} differ")
    return wrong


def main(words):
    if words == ["write"]:
        for name, made in FILES.items():
            (TOP / name).parent.mkdir(exist_ok=True)
            (TOP / name).write_text(made())
    elif words[:1] == ["check"] and len(words) <= 2:
        wrong = check(str(pathlib.Path(words[1]).resolve()) if len(words) == 2 else None)
        sys.exit("\n".join(wrong) or None)
    else:
        sys.exit(__doc__)


if __name__ == "__main__":
    main(sys.argv[1:])
