"""The page for man and the completions for bash, made from what a program prints for --help, so
that they agree with it."""

import re
import subprocess


class Help:
    """What the program prints for a word and --help, by its parts."""

    def __init__(self, program, *words):
        words = [program, *words, "--help"]
        ran = subprocess.run(words, capture_output=True, text=True, check=True)
        parts = ran.stdout.rstrip().split("\n\n")
        self.about, self.usage = parts[0], parts[1].partition("Usage: ")[2]
        self.rows, left = {}, parts[2:]
        # The options are the last list that clap makes; what follows is the author's.
        while "Options:" not in self.rows:
            head, _, rows = left.pop(0).partition("\n")
            self.rows[head] = re.findall(r"(?m)^ +(\S.*?)  +(\S.*)$", rows)
        self.after = "\n\n".join(left)

    def options(self):
        """The long options, each with the name of its value, which is empty where it takes none."""
        rows = (re.search(r"--([\w-]+)(?: <(.*)>)?", it) for it, _ in self.rows["Options:"])
        return {it[1]: it[2] or "" for it in rows}


def man_text(text):
    """A text as a page for man writes it."""
    text = text.replace("\\", "\\e").replace("-", "\\-").replace("'", "\\(aq")
    return re.sub(r"(?m)^\.", "\\\\&.", text)


def man_page(program, words, version):
    rows = [f'.TH MOS65 1 "" "{man_text(version)}"', ".SH NAME",
            f"mos65 \\- {man_text(program.about)}", ".SH SYNOPSIS", ".nf"]
    rows += [man_text(it.usage) for it in words.values()] + [".fi", ".SH COMMANDS"]
    for name, it in words.items():
        rows += [f".SS {name}", man_text(it.about)]
        for head in ("Arguments:", "Options:"):
            for term, text in it.rows.get(head, ()):
                rows += [".TP", f".B {man_text(term)}", man_text(text)]
        rows += [".PP", ".nf", man_text(it.after), ".fi"]
    for part in program.after.split("\n\n"):
        head, _, text = part.partition(":")
        rows += [f".SH {head.upper()}", ".nf", man_text(text.lstrip(" ").strip("\n")), ".fi"]
    return "\n".join([*rows, ""])


COMPLETIONS = """# Completions of mos65 for bash, made from what it prints for --help.
_mos65() {
    local word=${COMP_WORDS[COMP_CWORD]} choices='' options=''
    case ${COMP_WORDS[COMP_CWORD - 1]} in
        @choices@
    esac
    case ${COMP_WORDS[1]} in
        @options@
    esac
    if [ "$COMP_CWORD" -eq 1 ]; then
        choices='@words@'
    elif [[ $word == -* ]]; then
        choices=$options
    fi
    mapfile -t COMPREPLY < <(compgen -W "$choices" -- "$word")
}
complete -o default -F _mos65 mos65
"""


def completions(program, words):
    """A value with choices of single words is completed by them, another word by the names of
    files."""
    chosen, known = {}, []
    for name, it in words.items():
        options = it.options()
        known.append(f"{name}) options='{' '.join(f'--{it}' for it in options)}' ;;")
        for option, value in options.items():
            if "|" in value and "=" not in value:
                chosen[option] = f"--{option}) choices='{value.replace('|', ' ')}' ;;"
    parts = {"words": " ".join([*words, "help", "--help"])}
    parts["choices"] = "\n        ".join(chosen.values())
    parts["options"] = "\n        ".join(known)
    return re.sub(r"@(\w+)@", lambda it: parts[it[1]], COMPLETIONS)


def pages(program):
    """The page for man and the completions of a program."""
    text = Help(program)
    words = {it: Help(program, it) for it, _ in text.rows["Commands:"] if it != "help"}
    told = subprocess.run([program, "--version"], capture_output=True, text=True, check=True).stdout
    version = " ".join(told.split()[:2])
    return man_page(text, words, version).encode(), completions(text, words).encode()
