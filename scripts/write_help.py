#!/usr/bin/env python3
"""Writes the man pages and the completions of `rubis` and `shop` as their command lines have them.

    scripts/write_help.py [--check] [PROGRAM]

Of `shop` where no program is named: by its parser. Else of that built `rubis`, which is asked: its `--help` has the commands, their options
and defaults, and what it answers to a number that is too large has an option's range; its records, refusals and statuses are those of docs/MANUAL.md.
Written are docs/NAME.1, completions/NAME.bash, completions/_NAME (for zsh) and completions/NAME.fish. With --check nothing is: each file
that differs from what would be written is told, and the status is then 1."""

import argparse
import os
import pathlib
import re
import subprocess
import sys
from collections.abc import Iterator
from typing import NamedTuple

from report import report
from top import TOP

from shop_tool.cli import ABOUT, EXAMPLES, NOTES, CommandLine

os.environ.pop("SHOP", None)

TOO_LARGE = "4294967295"    # for any option
OFFERED = 16                # up to this number, a range is offered number by number
WRITTEN_BY = "Written by scripts/write_help.py; changes are lost."
FILES, FOLDERS = "FILES", "FOLDERS"     # what is offered, where that is no list of words


class Option(NamedTuple):
    names: tuple[str, ...]      # as -n, --lines
    help: str
    value: str = ""             # what stands behind it, if anything does
    offers: str = ""            # words, FILES or FOLDERS


class Word(NamedTuple):
    """An argument without a name."""

    name: str
    help: str
    offers: str = ""
    nargs: str = ""             # of argparse


class Command(NamedTuple):
    name: str
    about: str
    words: list[Word]
    options: list[Option]


class Program(NamedTuple):
    """A program: its name and version, what its page says, and its commands."""

    name: str
    version: str
    about: str
    description: list[str]
    commands: list[Command]
    options: list[Option]       # of itself
    rest: list[str]             # of its page


HELP = Option(("-h", "--help"), "Prints the help")


# What `rubis` says.


def said(program: str, *words: str) -> str:
    done = subprocess.run([program, *words], stdin=subprocess.DEVNULL, capture_output=True, text=True, timeout=60)
    return done.stdout + done.stderr


def offers_of(low: int, high: int, default: str | None) -> str:
    """What is offered of a range: all of a small one, or powers of two if it ends at one, or the default alone."""
    if high <= OFFERED:
        return " ".join(map(str, range(low, high + 1)))
    powers = [str(1 << place) for place in range(high.bit_length())]
    return " ".join(powers) if powers[-1] == str(high) else default or str(high)


def options_of(program: str, command: str, text: str) -> Iterator[Option]:
    for name, words in re.findall(r"^ {2,}--([\w-]+) <\w+>\s+(.*(?:\n {12,}\S.*)*)", text, re.M):
        words = " ".join(words.split())
        default = re.search(r" ?\[default: (.*?)\]", words)
        bounds = re.search(r"is not in (\d+)\.\.=(\d+)", said(program, command, f"--{name}", TOO_LARGE))
        if bounds is None or (default is None and "by default" not in words):
            sys.exit(f"write_help.py: no default or no range of {command} --{name}")
        low, high = map(int, bounds.groups())
        if default:
            words = words.replace(default.group(0), "")
        if f"{low} to {high}" not in words.replace(",", ""):
            words += f": {low:,} to {high:,}"
        yield Option((f"--{name}",), words + (f", {int(default.group(1)):,} by default" if default else ""), "n",
                     offers_of(low, high, default.group(1) if default else None))
    yield from (Option((f"--{name}",), words) for name, words in re.findall(r"^ {2,}--([\w-]+)  +(\S.*)", text, re.M))


def words_of(text: str) -> Iterator[Word]:
    """An argument that may be left out is one of the words at the end of its help; any other is a folder."""
    for bracket, name, words in re.findall(r"^Arguments:\n  ([<\[])(\w+)[>\]]\s+(.*)", text, re.M):
        words = words.split(" [default:")[0]
        values = re.findall(r"\w+", words.split(":")[1].replace(" or ", " ")) if bracket == "[" else []
        yield Word(name, words + (f"; {values[0]} by default" if values else ""), " ".join(values) or FOLDERS, "?" if values else "")


def rubis(program: str) -> Program:
    text = said(program, "--help")
    commands = []
    for name in re.findall(r"^  (\w+) ", text.split("Commands:\n")[1].split("\n\n")[0], re.M):
        if name != "help":
            own = said(program, name, "--help")
            commands.append(Command(name, own.split("\n\n")[0].replace("\n", " "), [*words_of(own)], [*options_of(program, name, own)]))
    about = text.split("\n")[0]
    version = Option(("-V", "--version"), "Prints the version")
    return Program("rubis", said(program, "--version").split()[-1], about[0].lower() + about[1:], OF_RUBIS, commands, [HELP, version], rest_of_rubis())


OF_RUBIS = [
    "Each site accepts requests locally, sends the accepted operations to its peers and applies theirs, despite delay, duplication or reordering. "
    "It reads records on standard input, one a line, and writes the answers on standard output. It opens no sockets, and only rubis keep writes "
    "files: sites are connected by carrying lines between them.",
    "No answer depends on --batch, --shards or --workers. An option that is given twice is an error.",
]
EXAMPLE = r"""
One site, and two records to it:
.PP
.nf
.RS
$ printf \(aquser,ann\enlist,users\en\(aq | rubis site
reply,1,ok,0.1
send,msg,1,0,1,1,0,user,ann
reply,2,rows,1
row,user,0.1,ann,0,0,0,0
.RE
.fi""".lstrip("\n")


def table_of(heading: str) -> list[list[str]]:
    """The rows of the first table of the manual under that heading."""
    part = (TOP / "docs/MANUAL.md").read_text().split(f"\n{heading}\n")[1].split("\n#")[0]
    rows = re.findall(r"^\|(.*)\|$", part.split("|\n\n")[0] + "|", re.M)[2:]
    return [[cell.strip().replace("`", "") for cell in row.split(" | ")] for row in rows]


def rest_of_rubis() -> list[str]:
    """What the manual says of requests, packets, refusals and statuses; and an example."""
    out = [".SH RECORDS", roff("Records are CSV, one a line; the manual has the form of each field, and the answers.")]
    out += tagged({record: f"{meaning}." for heading in ("### Requests", "### Packets") for record, meaning in table_of(heading)})
    out += [".SH REFUSALS", *tagged({f"{code} {name}": f"{meaning}." for code, name, meaning in table_of("## Refusals")})]
    out += [".SH EXIT STATUS"]
    for status, when, told in table_of("## Statuses and standard error"):
        out += tagged({status: f"{when[0].upper()}{when[1:]}. On standard error: {told}."})
    out += [".SH EXAMPLES", EXAMPLE]
    return [*out, ".SH SEE ALSO", roff("docs/MANUAL.md has every record, answer and refusal; docs/GUIDE.md says how to run a shop of several sites.")]


# What `shop` says.


SITES = " ".join(map(str, range(16)))
OFFERS = {"SITE": SITES, "TO": SITES, "WHAT": "files redis://", "FILE": FILES, "FOLDER": FOLDERS, "OLD": FOLDERS, "NEW": FOLDERS}
ENVIRONMENT = {
    "SHOP": "The folder of the shop.",
    "RUBIS": "The program rubis; by default ./rubis beside the command, or else that of the search path.",
    "NO_COLOR": "Without colours, even on a terminal.",
}
OF_FOLDER = {
    "FOLDER/shop.json": "The settings of the shop.",
    "FOLDER/events": "What happened.",
    "FOLDER/SITE/kept, FOLDER/SITE/out": "What a site was given, and its answers.",
}


def parsed(parser: argparse.ArgumentParser) -> tuple[list[Word], list[Option]]:
    """The arguments and the options of a parser, but for its commands and its help."""
    words, options = [], []
    for action in parser._actions:
        name, help = str(action.metavar or action.dest.upper()), str(action.help or "")
        offers = " ".join(map(str, action.choices)) if action.choices else OFFERS.get(name, "")
        if action.option_strings and action.help != argparse.SUPPRESS and "--help" not in action.option_strings:
            options.append(Option(tuple(action.option_strings), help, *([] if action.nargs == 0 else [name, offers])))
        elif not action.option_strings and action.dest != "command":
            words.append(Word(name, help, offers, str(action.nargs or "")))
    return words, options


def shop() -> Program:
    line = CommandLine()
    abouts = {action.dest: str(action.help) for action in line.commands._choices_actions}
    commands = [Command(name, abouts[name], *parsed(parser)) for name, parser in line.commands.choices.items()]
    names, _, status = NOTES.partition("\nStatus: ")
    rest = [".SH EXIT STATUS", roff(status.strip()), ".SH ENVIRONMENT", *tagged(ENVIRONMENT), ".SH FILES", *tagged(OF_FOLDER)]
    rest += [".SH EXAMPLES", ".nf", roff(EXAMPLES.rstrip("\n")), ".fi", ".SH SEE ALSO", ".BR rubis (1)", ".br"]
    rest += [roff("docs/GUIDE.md says how to run a shop, by task; docs/MANUAL.md has every record, answer and refusal.")]
    return Program("shop", "0.1.0", "runs a rubis shop of several sites", [ABOUT, names], commands, [HELP, *parsed(line.words)[1]], rest)


# The man page.


def roff(text: str) -> str:
    """A text whose marks roff leaves alone: no hyphen that a reader may copy becomes a dash, and no line is a request."""
    text = text.replace("\\", "\\e").replace("-", "\\-").replace("'", "\\(aq")
    return re.sub(r"^\.", r"\\&.", text, flags=re.M)


def tagged(items: dict[str, str]) -> list[str]:
    """Names, each with what it means below it."""
    return [line for name, text in items.items() for line in (".TP", f".B {roff(name)}", roff(text))]


def shown(option: Option, of_all: bool) -> str:
    """How the page shows an option: by one of its names, or by all."""
    names = ", ".join(f"\\fB{roff(name)}\\fR" for name in option.names[:None if of_all else 1])
    return names + (f" \\fI{option.value}\\fR" if option.value else "")


def man_page(it: Program) -> str:
    out = [f'.\\" {WRITTEN_BY}', f'.TH {it.name.upper()} 1 "" "rubis {it.version}" "User Commands"', ".SH NAME", f"{it.name} \\- {roff(it.about)}"]
    out += [".SH SYNOPSIS"]
    for command in it.commands:
        words = [{"?": "[{}]", "*": "{} .."}.get(word.nargs, "{}").format(f"\\fI{word.name}\\fR") for word in command.words]
        out += [f".B {it.name} {command.name}", " ".join([f"[{shown(option, False)}]" for option in command.options] + words), ".br"]
    out[-1:] = [".SH DESCRIPTION", "\n.PP\n".join(map(roff, it.description)), ".SH COMMANDS"]
    for command in it.commands:
        out += [f".SS {it.name} {command.name}", roff(command.about[0].upper() + command.about[1:] + ".")]
        shows = [(f"\\fI{word.name}\\fR", word.help) for word in command.words if word.help]
        shows += [(shown(option, True), option.help) for option in command.options]
        out += [line for name, text in shows for line in (".TP", name, roff(text[0].upper() + text[1:] + "."))]
    out += [".SH OPTIONS"]
    out += [line for option in it.options for line in (".TP", shown(option, True), roff(option.help[0].upper() + option.help[1:] + "."))]
    return "\n".join([*out, *it.rest, ""])


# Completions.


BASH = """\
# Completion of {name} for bash. {written}
_{name}() {{
    local word=${{COMP_WORDS[COMP_CWORD]}} before=${{COMP_WORDS[COMP_CWORD - 1]}} command= at=0 words= how= next
    # `--sites=2` is three words to bash.
    if [[ $word == = ]]; then word=; elif [[ $before == = ]]; then before=${{COMP_WORDS[COMP_CWORD - 2]}}; fi
    for ((next = 1; next < COMP_CWORD; next++)); do
        case ${{COMP_WORDS[next]}} in
        {valued}) [[ ${{COMP_WORDS[++next]}} != = ]] || ((next++)) ;;
        -*) ;;
        *) if [[ $command ]]; then ((at++)); else command=${{COMP_WORDS[next]}}; fi ;;
        esac
    done
    case $command,$before,$at in
{cases}
    esac
    [[ $word != -* && $words$how ]] || case $command in
{options}
    esac
    mapfile -t COMPREPLY < <(compgen $how -W "$words" -- "$word")
}}
complete -F _{name} {name}
"""


def bash_completion(it: Program) -> str:
    def case(pattern: str, offers: str) -> str:
        return f"    {pattern}) " + {FILES: "how=-f", FOLDERS: "how=-d"}.get(offers, f"words='{offers}'") + " ;;"
    own = [name for option in it.options for name in option.names if name.startswith("--") or option.value]
    options = [case("''", " ".join([*(command.name for command in it.commands), *own]))]
    cases, valued = [], dict.fromkeys(name for option in it.options for name in option.names if option.value)
    for command in it.commands:
        for option in command.options:
            valued |= dict.fromkeys(option.names if option.value else ())
            cases += [case(f"{command.name},{name},*", option.offers) for name in option.names if option.offers]
        for at, word in enumerate(command.words):
            cases += [case(f"{command.name},*,{'*' if word.nargs == '*' else at}", word.offers)] if word.offers else []
        long = [name for option in [*command.options, HELP] for name in option.names if name.startswith("--")]
        options.append(case(command.name, " ".join(long)))
    cases = [case(f"*,{name},*", option.offers) for option in it.options for name in option.names if option.offers] + cases
    return BASH.format(name=it.name, written=WRITTEN_BY, valued=" | ".join(valued), cases="\n".join(cases), options="\n".join(options))


def quoted(text: str) -> str:
    """A text in single quotes of a POSIX shell."""
    return "'" + text.replace("'", "'\\''") + "'"


ZSH = """\
#compdef {name}
# Completion of {name} for zsh. {written}
_{name}() {{
    local context state line
    local -a commands
    commands=(
{commands}
    )
    _arguments -C {options} '1: :->command' '*:: :->rest'
    case $state in
    command) _describe command commands ;;
    rest)
        case $words[1] in
{cases}
        esac
        ;;
    esac
}}
if [[ $zsh_eval_context[-1] == loadautofunc ]]; then _{name} "$@"; else compdef _{name} {name}; fi
"""


def zsh_completion(it: Program) -> str:
    def offered(name: str, offers: str) -> str:
        return f":{name.lower()}:" + {FILES: "_files", FOLDERS: "_files -/", "": ""}.get(offers, "({})".format(offers.replace(":", "\\:")))

    def spec(option: Option) -> str:
        marks = [name + "=" * (name.startswith("--") and bool(option.value)) for name in option.names]
        about = option.help.replace("[", "(").replace("]", ")").replace(":", " -")
        rest = f"[{about}]" + (offered(option.value, option.offers) if option.value else "")
        return quoted(marks[0] + rest) if len(marks) == 1 else f"{quoted('(' + ' '.join(option.names) + ')')}{{{','.join(marks)}}}{quoted(rest)}"

    commands = [f"        {quoted(command.name + ':' + command.about.replace(':', ' -'))}" for command in it.commands]
    cases = []
    for command in it.commands:
        specs = [spec(option) for option in [HELP, *command.options]]
        specs += [quoted(("*" if word.nargs == "*" else str(at)) + offered(word.name, word.offers)) for at, word in enumerate(command.words, 1)]
        cases.append(f"        {command.name})\n            _arguments " + " \\\n                ".join(specs) + "\n            ;;")
    return ZSH.format(name=it.name, written=WRITTEN_BY, commands="\n".join(commands), options=" ".join(map(spec, it.options)), cases="\n".join(cases))


def fish_completion(it: Program) -> str:
    def text(words: str) -> str:
        return "'" + words.replace("\\", "\\\\").replace("'", "\\'") + "'"

    def offered(offers: str) -> str:
        return {FILES: " -r -F", FOLDERS: " -x -a '(__fish_complete_directories)'", "": " -x"}.get(offers, f" -x -a '{offers}'")

    def line(where: str, option: Option) -> str:
        names = " ".join(f"-l {name[2:]}" if name.startswith("--") else f"-s {name[1:]}" for name in option.names)
        return f"complete -c {it.name}{where} {names}{offered(option.offers) if option.value else ''} -d {text(option.help)}"

    out = [f"# Completion of {it.name} for fish. {WRITTEN_BY}", f"complete -c {it.name} -f", *(line("", option) for option in it.options)]
    out.append(f"set -l commands {' '.join(command.name for command in it.commands)}")
    for command in it.commands:
        out.append(f'complete -c {it.name} -n "not __fish_seen_subcommand_from $commands" -a {command.name} -d {text(command.about)}')
        inside = f' -n "__fish_seen_subcommand_from {command.name}"'
        out += [line(inside, option) for option in command.options]
        out += [f"complete -c {it.name}{inside}{offered(word.offers)} -d {text(word.name.lower())}" for word in command.words if word.offers]
    return "\n".join(out) + "\n"


def main() -> int:
    words = argparse.ArgumentParser(description=__doc__, formatter_class=argparse.RawDescriptionHelpFormatter)
    words.add_argument("--check", action="store_true")
    words.add_argument("program", nargs="?", type=pathlib.Path)
    args = words.parse_args()
    it = rubis(str(args.program.resolve())) if args.program else shop()
    helped = it._replace(commands=it.commands + [
        Command("help", "Prints the help of a command", [Word("COMMAND", "", " ".join(one.name for one in it.commands))], [])] if args.program else it.commands)
    texts = {f"docs/{it.name}.1": man_page(it), f"completions/{it.name}.bash": bash_completion(helped), f"completions/_{it.name}": zsh_completion(helped),
             f"completions/{it.name}.fish": fish_completion(helped)}
    if args.check:
        other = [name for name, text in texts.items() if not (TOP / name).exists() or (TOP / name).read_text() != text]
        return report(f"help of {it.name}", len(texts), [f"{name}:1: isn't what the command line says; scripts/write_help.py writes it" for name in other])
    for name, text in texts.items():
        (TOP / name).write_text(text)
    return 0


if __name__ == "__main__":
    sys.exit(main())
