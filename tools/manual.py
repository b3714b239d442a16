#!/usr/bin/env python3
"""Makes the man page of mctower and its completions for bash and zsh from the text of the help, and holds those in manual/ to it.

    tools/manual.py            compares; status 1 if a file differs
    tools/manual.py --write    writes manual/mctower.1, manual/mctower.bash and manual/_mctower

    man -l manual/mctower.1                     shows the page
    source manual/mctower.bash                  completes commands and options in bash
    fpath=($PWD/manual $fpath); compinit        the same in zsh

The help's text is in crates/mctower/src/line/help_texts.rt: a constant for the program, and one for each command, chosen by the command's name.
"""
import argparse
import re
import sys
from pathlib import Path

ROOT = Path(__file__).resolve().parent.parent
SOURCE = ROOT / "crates/mctower/src/line/help_texts.rt"
FOLDER = ROOT / "manual"
TEXT = re.compile(r'const (\w+): &str = "(?:\\\n)?((?:[^"\\]|\\.)*)";', re.S)
CHOICE = re.compile(r'"(\w+)" => ([A-Z]+),')
OPTION = re.compile(r"(--[a-z]+) ([A-Z])")


class Help:
    """The texts of the help: of the program, and of each command by its name."""

    def __init__(self, source):
        texts = {name: text.replace('\\"', '"').replace("\\n", "\n") for name, text in TEXT.findall(source)}
        self.version = texts.get("VERSION")
        self.program = texts["PROGRAM"]
        self.commands = {word: texts[name] for word, name in CHOICE.findall(source) if not name.endswith("USAGE")}

    def usage(self, command):
        return self.commands[command].split("\n")[0].removeprefix("usage: ")

    def words(self):
        """Returns what may stand behind the program's name."""
        return [*self.commands, "help", "--help", *(["--version"] if "--version" in self.program else [])]

    def options(self, command):
        """Returns the options of a command, each with the name of its value."""
        return OPTION.findall(self.usage(command))

    def locks(self):
        """Returns the names of locks, as the help on counting tells them."""
        told = re.search(r"is the lock:(.*?)\.", re.sub(r"\s+", " ", self.commands["count"]))
        return re.findall(r"'(\w+)'", told[1])


def shown(text):
    """Returns a text as a man page shows it line by line."""
    lines = (line.replace("\\", "\\e").replace("-", "\\-") for line in text.strip("\n").split("\n"))
    return "\n".join("\\&" + line if line.startswith((".", "'")) else line for line in lines)


def man_page(told):
    title = told.program.split("\n")[0].removeprefix("mctower: ").rstrip(".")
    version = f"mctower {told.version}" if told.version else "mctower"
    parts = ['.\\" Made by tools/manual.py from the text of the help.', f'.TH MCTOWER 1 "" "{version}"',
             f'.SH NAME\nmctower \\- {title[0].lower()}{title[1:]}\n.SH SYNOPSIS\n.nf']
    parts += [shown(told.usage(command)) for command in told.commands]
    parts.append(f".fi\n.SH DESCRIPTION\n.nf\n{shown(told.program)}\n.fi\n.SH COMMANDS")
    parts += [f".SS {command}\n.nf\n{shown(text)}\n.fi" for command, text in told.commands.items()]
    return "\n".join(parts) + "\n"


BASH = """\
# Completes commands and options of mctower in bash. Made by tools/manual.py from the text of the help.
_mctower() {
  local word=${COMP_WORDS[COMP_CWORD]} before=${COMP_WORDS[COMP_CWORD - 1]} words=
  case $before in
    --lock) words='LOCKS' ;;
    VALUES) return ;;
    *)
      case $COMP_CWORD:${COMP_WORDS[1]} in
        1:*) words='COMMANDS' ;;
OPTIONS
      esac
      ;;
  esac
  mapfile -t COMPREPLY < <(compgen -W "$words" -- "$word")
}
complete -o default -F _mctower mctower
"""

ZSH = """\
#compdef mctower
# Completes commands and options of mctower in zsh. Made by tools/manual.py from the text of the help.
_mctower() {
  if ((CURRENT == 2)); then
    compadd -- COMMANDS
    return
  fi
  case $words[2] in
OPTIONS
  esac
}
_mctower "$@"
"""


def filled(form, **parts):
    for name, part in parts.items():
        form = form.replace(name, part)
    return form


def bash_completion(told):
    options = [f"        *:{command}) words='{' '.join([*(option for option, _ in told.options(command)), '--help'])}' ;;" for command in told.commands]
    values = sorted({option for command in told.commands for option, _ in told.options(command)} - {"--lock"})
    return filled(BASH, LOCKS=" ".join(told.locks()), VALUES=" | ".join(values), COMMANDS=" ".join(told.words()), OPTIONS="\n".join(options))


def zsh_completion(told):
    values = {"--lock": f"({' '.join(told.locks())})"}
    options = []
    for command in told.commands:
        words = [f"'{option}[{value}]:{value}:{values.get(option, ' ')}'" for option, value in told.options(command)]
        options.append(f"    {command}) _arguments {' '.join(words)} '--help[what goes in and out]' '*:file:_files' ;;")
    return filled(ZSH, COMMANDS=" ".join(told.words()), OPTIONS="\n".join(options))


def made(told):
    """Returns the text of each file by its name."""
    return {"mctower.1": man_page(told), "mctower.bash": bash_completion(told), "_mctower": zsh_completion(told)}


def main():
    read = argparse.ArgumentParser(description=__doc__, formatter_class=argparse.RawDescriptionHelpFormatter)
    read.add_argument("--write", action="store_true")
    given = read.parse_args()
    files = made(Help(SOURCE.read_text()))
    if given.write:
        for name, text in files.items():
            (FOLDER / name).write_text(text)
    stale = [name for name, text in files.items() if not (FOLDER / name).is_file() or (FOLDER / name).read_text() != text]
    for name in stale:
        print(f"manual: manual/{name} is not what the help says: tools/manual.py --write")
    print(f"manual: {len(files) - len(stale)} passed, {len(stale)} failed")
    return 1 if stale else 0


if __name__ == "__main__":
    sys.exit(main())
