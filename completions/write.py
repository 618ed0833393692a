#!/usr/bin/env python3
"""Writes the completions of bash, zsh and fish, from the help of the program as it is stored with the tests.

usage: completions/write.py          writes the files beside this script
       completions/write.py check    tries them, and compares them with what it would write: prints `passed`, or what differs
                                     with status 1

The gate compares the stored help with what the program prints. A word of a command is completed as a file if it names one;
shells that are not installed are not tried.
"""
import re
import shutil
import subprocess
import sys
from collections import namedtuple
from pathlib import Path

HERE = Path(__file__).resolve().parent
STORED = HERE.parent / "crates" / "command_lines" / "stdout"
FILES = {"LOG", "OTHER", "DOMAIN", "PLAN"}
WRITTEN = "written by completions/write.py from the help of the program"

# A command: its name, what the help says of it, its words (their names, and what is said of them), and its options.
Command = namedtuple("Command", "name about words options")
# An option: its name without `--`, the name of its value or nothing, and what is said of it.
Option = namedtuple("Option", "name value about")


def stored(words):
    """The lines that the program prints for these words."""
    lines = STORED.read_text(encoding="utf-8").splitlines()
    place = lines.index(f"> :told {words}") + 1
    ends = next(at for at in range(place, len(lines)) if not lines[at].startswith("out|"))
    return [line.removeprefix("out|") for line in lines[place:ends]]


def part(lines, heading):
    """The lines after a heading, up to an empty one."""
    if heading not in lines:
        return []
    rest = lines[lines.index(heading) + 1:]
    return rest[:rest.index("")] if "" in rest else rest


def command(name):
    lines = stored(f"{name} --help")
    words = [re.fullmatch(r"  [<\[](\w+)[>\]](?:\.\.\.)? +(.*)", line).groups() for line in part(lines, "Arguments:")]
    options = [Option(*re.fullmatch(r"  (?:-h, |    )--([\w-]+)(?: <([\w:]+)>)? +(.*)", line).groups()) for line in part(lines, "Options:")]
    return Command(name, lines[0], words, options)


def commands():
    """All commands but `help`, which takes the name of one."""
    names = [line.split()[0] for line in part(stored("--help"), "Commands:")]
    return [command(name) for name in names if name != "help"]


def quoted(text):
    """A text between single quotes, as the three shells read it."""
    return "'" + text.replace("'", "’") + "'"


def bash(all_commands):
    names = " ".join(one.name for one in all_commands)
    cases = []
    for one in all_commands:
        options = " ".join(f"--{option.name}{'=' if option.value else ''}" for option in one.options)
        places = " ".join(str(place) for place, word in enumerate(one.words, 1) if word[0] in FILES)
        values = " ".join(f"--{option.name}" for option in one.options if option.value in FILES)
        cases.append(f'        {one.name}) options="{options}" places="{places}" values="{values}" ;;')
    return f"""# Completions of stn for bash, {WRITTEN}. Source it from ~/.bashrc.
_stn() {{
    local word=${{COMP_WORDS[COMP_CWORD]}} before=${{COMP_WORDS[COMP_CWORD - 1]}} options places values place=0 at
    COMPREPLY=()
    if ((COMP_CWORD == 1)); then
        mapfile -t COMPREPLY < <(compgen -W "{names} help --help --version" -- "$word")
        return
    fi
    if [[ ${{COMP_WORDS[1]}} == help ]]; then
        if ((COMP_CWORD == 2)); then mapfile -t COMPREPLY < <(compgen -W "{names}" -- "$word"); fi
        return
    fi
    case ${{COMP_WORDS[1]}} in
{chr(10).join(cases)}
        *) return ;;
    esac
    # `=` is a word of its own here, so a value comes two words after its option.
    if [[ $word == = ]]; then
        before=$word word=
        at=$((COMP_CWORD - 1))
    else
        at=$((COMP_CWORD - 2))
    fi
    if [[ $before == = ]]; then
        if [[ " $values " == *" ${{COMP_WORDS[at]}} "* ]]; then compopt -o filenames; mapfile -t COMPREPLY < <(compgen -f -- "$word"); fi
        return
    fi
    # Or one word after it, where a blank stands between.
    if [[ " $options " == *" $before= "* ]]; then
        if [[ " $values " == *" $before "* ]]; then compopt -o filenames; mapfile -t COMPREPLY < <(compgen -f -- "$word"); fi
        return
    fi
    if [[ $word == -* ]]; then
        mapfile -t COMPREPLY < <(compgen -W "$options" -- "$word")
        if [[ ${{COMPREPLY[*]}} == *= ]]; then compopt -o nospace; fi
        return
    fi
    for ((at = 2; at < COMP_CWORD; at++)); do
        if [[ ${{COMP_WORDS[at]}} != -* && ${{COMP_WORDS[at]}} != = && ${{COMP_WORDS[at - 1]}} != = && " $options " != *" ${{COMP_WORDS[at - 1]}}= "* ]]; then ((place++)); fi
    done
    if [[ " $places " == *" $((place + 1)) "* ]]; then compopt -o filenames; mapfile -t COMPREPLY < <(compgen -f -- "$word"); fi
}}
complete -F _stn stn
"""


def zsh_text(text):
    """What is said of a word, in a specification of `_arguments`."""
    return re.sub(r"([\[\]:\\])", r"\\\1", text)


def zsh(all_commands):
    listed = "\n".join(f"        {quoted(name + ':' + zsh_text(about))}" for name, about, *_ in [*all_commands, ("help", "Says what a command does")])
    cases = []
    for one in all_commands:
        specs = []
        for option in one.options:
            action = ":_files" if option.value in FILES else ":"
            value = f"=:{zsh_text(option.value)}{action}" if option.value else ""
            mark, equals = ("*", value[:1]) if option.value and option.value.startswith("SITE:") else ("", value[:1])
            specs.append(quoted(f"{mark}--{option.name}{equals}[{zsh_text(option.about)}]{value[1:]}"))
        for place, (name, about) in enumerate(one.words, 1):
            specs.append(quoted(f"{place}:{zsh_text(about)}{':_files' if name in FILES else ':'}"))
        cases.append(f"        {one.name})\n            _arguments -s " + " \\\n                ".join(specs) + "\n            ;;")
    return f"""#compdef stn
# Completions of stn for zsh, {WRITTEN}. Put it into a folder of $fpath.
_stn() {{
    local -a commands
    commands=(
{listed}
    )
    if ((CURRENT == 2)) || [[ $words[2] == help ]]; then
        _describe command commands
        (( CURRENT == 2 )) || return
        _arguments '--help[Print help]' '--version[Print version]'
        return
    fi
    local command=$words[2]
    shift words
    ((CURRENT--))
    case $command in
{chr(10).join(cases)}
    esac
}}
_stn "$@"
"""


def fish(all_commands):
    lines = [f"# Completions of stn for fish, {WRITTEN}. Put it into ~/.config/fish/completions.",
             "complete -c stn -f",
             "complete -c stn -n __fish_use_subcommand -l help -d 'Print help'",
             "complete -c stn -n __fish_use_subcommand -l version -d 'Print version'"]
    for one in all_commands:
        lines.append(f"complete -c stn -n __fish_use_subcommand -a {one.name} -d {quoted(one.about)}")
    names = " ".join(one.name for one in all_commands)
    lines.append("complete -c stn -n __fish_use_subcommand -a help -d 'Print help'")
    lines.append(f"complete -c stn -n '__fish_seen_subcommand_from help' -a '{names}'")
    for one in all_commands:
        seen = f"complete -c stn -n '__fish_seen_subcommand_from {one.name}'"
        if any(name in FILES for name, _ in one.words):
            lines.append(f"{seen} -F")
        for option in one.options:
            value = " -r -F" if option.value in FILES else " -x" if option.value else ""
            lines.append(f"{seen} -l {option.name}{value} -d {quoted(option.about)}")
    return "\n".join(lines) + "\n"


def texts():
    all_commands = commands()
    return {"stn.bash": bash(all_commands), "_stn": zsh(all_commands), "stn.fish": fish(all_commands)}


def completed(*words):
    """What bash offers for the last of these words."""
    script = 'source "$0"; COMP_WORDS=("$@"); COMP_CWORD=$(($# - 1)); _stn 2>/dev/null; printf "%s\\n" "${COMPREPLY[@]}"'
    done = subprocess.run(["bash", "-c", script, HERE / "stn.bash", *words], cwd=HERE, capture_output=True, text=True, check=True)
    return sorted(done.stdout.split())


def wrong():
    """What differs, and what the shells that are here make of the files."""
    for name, text in texts().items():
        path = HERE / name
        if not path.exists() or path.read_text(encoding="utf-8") != text:
            yield f"{name} is not what the help says: run completions/write.py"
    for shell, name in (("bash", "stn.bash"), ("zsh", "_stn"), ("fish", "stn.fish")):
        if shutil.which(shell) and subprocess.run([shell, "-n", HERE / name], check=False).returncode != 0:
            yield f"{shell} can't read {name}"
    if not shutil.which("bash"):
        return
    for words, offered in ((["stn", "wit"], ["withdraw"]), (["stn", "re"], ["report", "ready", "repairs", "records", "rehearse"]),
                           (["stn", "report", "stn."], ["stn.bash", "stn.fish"]), (["stn", "report", "t.log", "s"], []),
                           (["stn", "add", "t.log", "1", "s1", "e1", "--l"], ["--lo="]), (["stn", "next", "t.log", "1", "0", "--st"], ["--steps=", "--starts"]),
                           (["stn", "steps", "t.log", "1", "--plan", "=", "_"], ["_stn"]), (["stn", "steps", "--plan", "=", "p", "_"], ["_stn"]),
                           (["stn", "add", "t.log", "1", "--lo", "=", "_"], []), (["stn", "fly", "_"], []),
                           (["stn", "steps", "t.log", "1", "--plan", "_"], ["_stn"]), (["stn", "steps", "--plan", "p", "_"], ["_stn"]),
                           (["stn", "help", "wh"], ["why"]), (["stn", "he"], ["help"])):
        if completed(*words) != sorted(offered):
            yield f"bash offers {completed(*words)} for {words}"


def main():
    if sys.argv[1:] == ["check"]:
        found = list(wrong())
        print("\n".join(found) or "passed")
        sys.exit(1 if found else 0)
    if sys.argv[1:]:
        sys.exit(__doc__)
    for name, text in texts().items():
        (HERE / name).write_text(text, encoding="utf-8")


if __name__ == "__main__":
    main()
