"""Completion of the companions' words in shells, made of what each says for --help: one file for bash, one for zsh, one for fish."""
import glob
import os
import re
import subprocess
from collections.abc import Sequence
from dataclasses import dataclass

from cics.child import TOP
from cics.cli import Failure
from cics.explaining import kinds

COMPANIONS = os.path.join(TOP, "companions")
PROGRAMS = ("cicsedf", "cicslook")
OPTION = re.compile(r"^  (?P<name>-[^\s,]+)(?:, (?P<other>-[^ ]+))?(?: (?:\[[^ \]]*\])?(?P<value>\S+)(?: \S+)*)?(?:\s{2,}(?P<help>.*))?$")
OF_FILES = ("FILE", "PATH", "FOLDER", "SESSION")  # what stands for a file where an option has a value
OF_NAMES = ("NAME=PROGRAM", "PROGRAM=OLD:NEW", "TEXT")  # what begins with a program's or a transaction's name
EXPLAINED = "KIND"
HEAD = "Completion of the companions' words, made of their --help by completion/make."


@dataclass(frozen=True)
class Option:
    """An option: its names, what it takes, and what its line of --help says."""

    names: tuple[str, ...]
    value: str
    help: str


def options_in(text: str) -> list[Option]:
    """The options of a text of --help, whose lines aren't broken."""
    lines = text.partition("\noptions:\n")[2].split("\n")
    found = []
    for line, following in zip(lines, [*lines[1:], ""]):
        option = OPTION.match(line)
        if option:
            said = option["help"] or (following.strip() if following.startswith("      ") else "")
            names = tuple(name.split(" ")[0] for name in (option["name"], option["other"]) if name)
            found.append(Option(names, option["value"] or "", said))
    return found


def options_of(companion: str) -> list[Option]:
    ran = subprocess.run([os.path.join(COMPANIONS, companion), "--help"], env={**os.environ, "COLUMNS": "1000"}, stdin=subprocess.DEVNULL,
                         capture_output=True, text=True, check=False)
    if ran.returncode != 0 or not options_in(ran.stdout):
        raise Failure(f"{companion} --help: status {ran.returncode}")
    return options_in(ran.stdout)


def words_of(options: Sequence[Option]) -> list[str]:
    return [name for option in options for name in option.names]


def valued(all_options: dict[str, list[Option]], values: Sequence[str]) -> str:
    """The options that take one of some values, as a pattern of the shell."""
    found = dict.fromkeys(name for options in all_options.values() for option in options if option.value in values for name in option.names)
    return "|".join(found)


def for_bash(all_options: dict[str, list[Option]]) -> str:
    cases = "".join(f'    {name}) options="{" ".join(words_of(options))}" ;;\n' for name, options in all_options.items())
    return f"""# {HEAD} For bash: `. completion/cicsedf.bash`.
_cics_names() {{  # programs and transactions of the sources and scripts that stand among the words
  local file
  for file in "${{COMP_WORDS[@]:1}}"; do
    [[ -f $file ]] && sed -nE 's/^([A-Z0-9@#$]{{1,8}}) +(CSECT|START|DFHEIENT)( .*)?$/\\1/p; s/^(SOURCE|TRANSACTION) ([A-Z0-9@#$]+).*/\\2/p' "$file"
  done | sort -u
}}
_cics_words() {{
  local word=${{COMP_WORDS[COMP_CWORD]}} before=${{COMP_WORDS[COMP_CWORD - 1]}} options=
  case ${{COMP_WORDS[0]##*/}} in
{cases}  esac
  case $before in
    {valued(all_options, [EXPLAINED])}) mapfile -t COMPREPLY < <(compgen -W "{' '.join(kinds())}" -- "$word"); return ;;
    {valued(all_options, OF_NAMES)}) mapfile -t COMPREPLY < <(compgen -W "$(_cics_names)" -- "$word"); return ;;
  esac
  if [[ $word == -* ]]; then
    mapfile -t COMPREPLY < <(compgen -W "$options" -- "$word")
  elif [[ ${{COMP_WORDS[0]##*/}} == cics-same && $COMP_CWORD == 2 ]]; then
    mapfile -t COMPREPLY < <(compgen -f -W "$(_cics_names)" -- "$word")
  else
    mapfile -t COMPREPLY < <(compgen -f -- "$word")
  fi
}}
complete -o filenames -F _cics_words {' '.join([*PROGRAMS, *all_options])}
"""


def zsh_word(option: Option, name: str) -> str:
    """An option as _arguments takes it."""
    said = re.sub(r"([\[\]:\\])", r"\\\1", option.help).replace("'", "'\\''")
    if not option.value:
        return f"'*{name}[{said}]'"
    action = "_files" if option.value in OF_FILES else f"({' '.join(kinds())})" if option.value == EXPLAINED else " "
    return f"'*{name}[{said}]:{option.value.replace(':', chr(92) + ':')}:{action}'"


def for_zsh(all_options: dict[str, list[Option]]) -> str:
    cases = []
    for name, options in all_options.items():
        words = [zsh_word(option, one) for option in options for one in option.names]
        cases.append(f"  {name}) _arguments \\\n" + "".join(f"    {word} \\\n" for word in words) + "    '*:file:_files' ;;\n")
    return f"""#compdef {' '.join([*PROGRAMS, *all_options])}
# {HEAD} For zsh: a file `_cicsedf` in a folder of fpath.
case $service in
{''.join(cases)}  *) _files ;;
esac
"""


def fish_value(option: Option) -> str:
    """What an option takes, as fish takes it."""
    if option.value == EXPLAINED:
        return f" -x -a '{' '.join(kinds())}'"
    return "" if not option.value else " -r -F" if option.value in OF_FILES else " -x"


def fish_line(companion: str, option: Option) -> str:
    """An option as fish takes it."""
    names = " ".join(f"-l {name[2:]}" if name.startswith("--") else f"-s {name[1:]}" for name in option.names)
    said = option.help.replace("\\", "\\\\").replace("'", "\\'")
    return f"complete -c {companion} {names}{fish_value(option)} -d '{said}'\n"


def for_fish(all_options: dict[str, list[Option]]) -> str:
    lines = [fish_line(name, option) for name, options in all_options.items() for option in options]
    return f"# {HEAD} For fish: a file in ~/.config/fish/completions.\n{''.join(lines)}"


def completions() -> dict[str, str]:
    """The files of the completion, each with its text."""
    all_options = {name: options_of(name) for name in sorted(os.path.basename(path) for path in glob.glob(f"{COMPANIONS}/cics-*"))}
    return {"cicsedf.bash": for_bash(all_options), "_cicsedf": for_zsh(all_options), "cicsedf.fish": for_fish(all_options)}
