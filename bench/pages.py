#!/usr/bin/env python3
"""The manual page, the completions of bash and zsh and the stored runs of the pages, made from the program's table of commands.

The table is `page_of` in crates/wheelsync_cli/src/help.rt: a row a command, whose page begins with its grammar and, indented, what it
does. It also tells whether the overview lists exactly these.

usage: bench/pages.py            writes docs/wheelsync.1, docs/wheelsync.bash, docs/_wheelsync and outside/runs/*-help.run
       bench/pages.py --check    compares them, and changes nothing
"""
import os
import re
import sys

TOP = os.path.dirname(os.path.dirname(os.path.abspath(__file__)))
SOURCE = os.path.join(TOP, "crates/wheelsync_cli/src/help.rt")
NAMES = ("--time", "--crank", "--cam1", "--cam2")
# operands that name no file
FREE = ("NAME", "SEED", "GAPS")


class Command:
    def __init__(self, name, page):
        self.name, self.page = name, page
        grammar, says, _, *rest = page.split("\n")
        self.grammar, self.says = grammar.removeprefix("wheelsync "), says.strip()
        self.rest = "\n".join(rest)
        plain = re.sub(r"\[.*?\]", "", self.grammar)
        self.operands = plain.split()[1:]
        # the operands of which one word of some is due, by their place in the words
        self.choices = {at: operand.split("|") for at, operand in enumerate(self.operands, 2) if "|" in operand}
        self.options = (*(NAMES if "[NAMES]" in self.grammar else ()), *re.findall(r"\[(--\w+) ", self.grammar))


def table():
    """The overview and the commands, in the order of the table."""
    with open(SOURCE, encoding="utf-8") as it:
        text = it.read()
    pages = dict(re.findall(r'const (\w+): &\[u8\] =\s*b"(.*?)";', text, re.S))
    rows = re.findall(r'"(\w+)" => Some\((\w+)\),', text.split("fn page_of")[1].split("\n}")[0])
    return pages["OVERVIEW"], [Command(name, pages[page]) for name, page in rows]


def faults(overview, commands):
    """What the pages and the overview do not say as they should."""
    listed = re.findall(r"^    (wheelsync \w+ [A-Z].*)\n        (.*)$", overview, re.M)
    due = [("wheelsync " + it.grammar, it.says) for it in commands]
    if listed != due:
        yield "the overview lists %r, the table %r" % (listed, due)
    for it in commands:
        if it.grammar.split()[0] != it.name:
            yield "the page of %s begins otherwise" % it.name
        for part in ("\nExample", "\nStatuses: 0"):
            if part not in it.page:
                yield "the page of %s has no %r" % (it.name, part.strip())


def roff(text):
    return text.replace("\\", "\\e").replace("-", "\\-").replace("\n.", "\n\\&.").replace("\n'", "\n\\&'")


def manual(overview, commands):
    """The page for man: the overview past its list, and each command's page."""
    lines = [".TH WHEELSYNC 1", ".SH NAME", "wheelsync \\- " + roff(overview.split("\n")[0].removeprefix("wheelsync: "))]
    lines += [".SH SYNOPSIS", ".nf"] + ["wheelsync " + roff(it.grammar) for it in commands]
    lines += ["wheelsync [COMMAND] \\-\\-help", "wheelsync \\-\\-version", ".fi"]
    about = overview[overview.index("\nWHEEL is"):].strip("\n")
    lines += [".SH DESCRIPTION", ".nf", roff(about), ".fi", ".SH COMMANDS"]
    for it in commands:
        lines += [".SS " + roff(it.grammar), roff(it.says[0].upper() + it.says[1:] + "."), ".PP", ".nf", roff(it.rest.strip("\n")), ".fi"]
    return "\n".join(lines) + "\n"


def bash(commands):
    cases = ["        %s) words=%s ;;" % (it.name, '"%s"' % " ".join((*it.options, "--help"))) for it in commands]
    choice = '        %s.%d) COMPREPLY=($(compgen -W "%s" -- "$word")); return ;;'
    choices = [choice % (it.name, at, " ".join(words)) for it in commands for at, words in it.choices.items()]
    free = ["%s.%d" % (it.name, at) for it in commands for at, word in enumerate(it.operands, 2) if word in FREE]
    return "\n".join([
        "# Completion of wheelsync for bash: source this file. Made by bench/pages.py.",
        "_wheelsync() {",
        '    local word=${COMP_WORDS[COMP_CWORD]} words=',
        "    if [ \"$COMP_CWORD\" -eq 1 ]; then",
        '        COMPREPLY=($(compgen -W "%s help --help --version" -- "$word"))' % " ".join(it.name for it in commands),
        "        return",
        "    fi",
        "    case ${COMP_WORDS[1]} in",
        *cases,
        "    esac",
        "    case ${COMP_WORDS[1]}.$COMP_CWORD in",
        *choices,
        "        %s) return ;;" % " | ".join(free),
        "    esac",
        "    case $word in",
        '        -*) COMPREPLY=($(compgen -W "$words" -- "$word")) ;;',
        '        *) COMPREPLY=($(compgen -f -- "$word")) ;;',
        "    esac",
        "}",
        "complete -o filenames -F _wheelsync wheelsync ./wheelsync",
    ]) + "\n"


def offered(operand):
    """What zsh offers for an operand."""
    return "(%s)" % operand.replace("|", " ") if "|" in operand else " " if operand in FREE else "_files"


def zsh(commands):
    lines = ["#compdef wheelsync", "# Completion of wheelsync for zsh: put this file into a folder of fpath. Made by bench/pages.py.", ""]
    lines += ["local -a commands", "commands=("]
    lines += ["    %s:%s" % (it.name, "'%s'" % it.says.replace("'", "'\\''")) for it in commands]
    lines += ["    help:'what the commands are'", ")", "if (( CURRENT == 2 )); then", "    _describe command commands", "    return", "fi",
              "shift words", "(( CURRENT-- ))", "case $words[1] in"]
    for it in commands:
        options = ["'%s[%s]'" % (name, "another name" if name in NAMES else "a file") for name in it.options]
        options = [option[:-1] + (":name:'" if "name]" in option else ":file:_files'") for option in options]
        operands = ["'%d:%s:%s'" % (at, word, offered(word)) for at, word in enumerate(it.operands, 1)]
        lines.append("    %s) _arguments '--help[the page of the command]' \\" % it.name)
        lines.append("        %s ;;" % " \\\n        ".join(options + operands))
    return "\n".join(lines + ["esac"]) + "\n"


def runs(overview, commands):
    """The runs that ask for a page: their words one a line, the status, and the page. outside/recipes runs them."""
    asked = {"overview": ("--help", overview), "h": ("-h", overview), "word": ("help", overview)}
    asked |= {it.name: (it.name + "\n--help", it.page) for it in commands}
    return {"outside/runs/%s-help.run" % name: "%s\nstatus 0\n%s" % it for name, it in asked.items()}


def main():
    overview, commands = table()
    told = list(faults(overview, commands))
    made = {"docs/wheelsync.1": manual(overview, commands), "docs/wheelsync.bash": bash(commands), "docs/_wheelsync": zsh(commands)}
    made |= runs(overview, commands)
    for name, text in made.items():
        path = os.path.join(TOP, name)
        if "--check" not in sys.argv[1:]:
            with open(path, "w") as it:
                it.write(text)
        elif not os.path.exists(path) or open(path).read() != text:
            told.append(name + " differs")
    for fault in told:
        print("pages: " + fault)
    return 1 if told else 0


if __name__ == "__main__":
    sys.exit(main())
