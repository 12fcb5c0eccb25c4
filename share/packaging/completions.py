"""The words of the programs of a release for zsh and fish, from the help texts of share/texts/ and share/serve/. (share/byzlab.bash
has them for bash.)"""
import re
from collections import namedtuple

from checkout import read

# A flag with its names, the placeholder of its value or nothing, and its sentence.
Flag = namedtuple("Flag", "names value sentence")
Command = namedtuple("Command", "name sentence flags")
# The programs of a release that have no subcommands, each with its help text.
OTHERS = {"byzlab-survey": "share/texts/help-survey", "byzlab-serve": "share/serve/help"}
# The values that are files or folders. The others are numbers and names, which nothing can complete.
FILES = ("<FILE>", "<FILE>...", "<CONTEXT>", "<DIR>", "<WHAT>")


def entries(text, title):
    """Returns the entries of a part of a help text, each with its sentence."""
    part = re.search(rf"^{title}:\n((?:  .*\n)+)", text, re.M)
    lines = part[1].splitlines() if part else []
    return [tuple((re.split(r"\s{2,}", line.strip(), maxsplit=1) + [""])[:2]) for line in lines]


def flags(text):
    """Returns the flags that a help text lists."""
    found = []
    for entry, sentence in entries(text, "Options"):
        words = entry.replace(",", "").split()
        names = [word for word in words if word.startswith("-")]
        value = next((word for word in words if word.startswith("<")), "")
        found.append(Flag(names, value, sentence))
    return found


def has_many(flags):
    """Returns whether one of these flags takes several files."""
    return any(flag.value == "<FILE>..." for flag in flags)


def commands():
    """Returns the commands of bin/byzlab, each with its flags."""
    listed = entries(read("share/texts/help"), "Commands")
    return [Command(name, sentence, flags(read(f"share/texts/help-{name}"))) for name, sentence in listed]


def quoted(text):
    """Returns a text as one word of a shell."""
    return "'" + text.replace("'", "'\\''") + "'"


# ---- zsh


def zsh_argument(flag):
    """Returns the words of `_arguments` for a flag."""
    sentence = re.sub(r"([\[\]:\\])", r"\\\1", flag.sentence)
    value = flag.value.strip("<>.")
    after = f":{value}:_files" if flag.value in FILES else f":{value}: " if value else ""
    return [quoted(f"({' '.join(flag.names)}){name}[{sentence}]{after}") for name in flag.names]


def zsh_arguments(given, indent, takes_files=True):
    """Returns a call of `_arguments`, one flag a line."""
    lines = [word for flag in given for word in zsh_argument(flag)] + ["'*:file:_files'"] * takes_files
    return "_arguments" + "".join(f" \\\n{indent}    {line}" for line in lines)


def zsh():
    """Returns the completion for zsh, the file _byzlab."""
    found, top = commands(), flags(read("share/texts/help"))
    listed = "".join(f"        {quoted(name + ':' + sentence.replace(':', chr(92) + ':'))}\n" for name, sentence, _ in found)
    cases = "".join(f"    {name})\n        {zsh_arguments(given, ' ' * 8)}\n        ;;\n" for name, _, given in found if name != "help")
    listed_others = {name: flags(read(text)) for name, text in OTHERS.items()}
    others = "".join(f"    {name})\n        {zsh_arguments(given, ' ' * 8, has_many(given))}\n        ;;\n" for name, given in listed_others.items())
    first = " ".join(word for flag in top for word in zsh_argument(flag))
    return f"""#compdef byzlab {" ".join(OTHERS)}
# Completion of the words of byzlab, byzlab-survey and byzlab-serve in zsh, made of their help.

_byzlab_commands() {{
    local -a commands=(
{listed}    )
    _describe command commands
}}

_byzlab() {{
    local curcontext=$curcontext state line
    _arguments -C {first} '1:command:_byzlab_commands' '*::word:->words'
    [[ $state == words ]] || return 0
    case $words[1] in
    help)
        _byzlab_commands
        ;;
{cases}    esac
}}

case $service in
{others}    *)
        _byzlab "$@"
        ;;
esac
"""


# ---- fish


def fish_flag(program, condition, flag):
    """Returns the line of `complete` for a flag."""
    names = " ".join(f"-l {name[2:]}" if name.startswith("--") else f"-s {name[1:]}" for name in flag.names)
    value = " -r -F" if flag.value in FILES else " -x" if flag.value else ""
    where = f" -n {quoted(condition)}" if condition else ""
    return f"complete -c {program}{where} {names}{value} -d {quoted(flag.sentence)}\n"


def fish():
    """Returns the completion for fish, the file byzlab.fish."""
    lines = ["# Completion of the words of byzlab in fish, made of its help.\n"]
    for name, sentence, given in commands():
        lines.append(f"complete -c byzlab -n __fish_use_subcommand -f -a {name} -d {quoted(sentence)}\n")
        seen = f"__fish_seen_subcommand_from {name}"
        if name == "help":
            names = " ".join(each for each, _, _ in commands())
            lines.append(f"complete -c byzlab -n {quoted(seen)} -f -a {quoted(names)}\n")
        else:
            lines += [fish_flag("byzlab", seen, flag) for flag in given]
    lines += [fish_flag("byzlab", "__fish_use_subcommand", flag) for flag in flags(read("share/texts/help"))]
    return "".join(lines)


def fish_other(name):
    """Returns the completion for fish of a program without subcommands, the file NAME.fish."""
    given = flags(read(OTHERS[name]))
    lines = [f"# Completion of the words of {name} in fish, made of its help.\n"]
    lines += [] if has_many(given) else [f"complete -c {name} -f\n"]
    return "".join(lines + [fish_flag(name, "", flag) for flag in given])
