"""The pages of the manual of the programs, and what completes the words of smap; sourcemap writes its page and its completions itself, but for
the last sections of the page."""

import re

from tools.pack.products import TOP, VERSION

COMMANDS = "mappings normalise url trace plan"
OPTIONS = {
    "where": "tell where in the input a fault is, too",
    "help": "print the commands",
    "version": "print the version",
}
# Of each program the sections behind its commands: what they begin with, and a word and what is said of it, in rows.
SECTIONS = {
    "smap": {
        "EXIT STATUS": ("", {"0": "The answer is printed.", "1": "The input has no answer.", "2": "An argument is wrong."}),
        "ENVIRONMENT": ("No variable is read.", {}),
        "FILES": ("Standard input is read. No file is read or written.", {}),
        "SEE ALSO": ("sourcemap(1), oxc_sourcemap(3)", {}),
    },
    "sourcemap": {
        "EXIT STATUS": (
            "",
            {
                "0": "Something was found, and nothing is wrong.",
                "1": "Nothing was found, or something is wrong or different.",
                "2": "An error.",
            },
        ),
        "ENVIRONMENT": (
            "",
            {
                "NO_COLOR": "If it is set and not empty, resolve prints no colours.",
                "PWD": "The name of the current folder, where it is one.",
                "SOURCEMAP_PAGE": "The template of page, unless --template names one.",
                "SOURCEMAP_SIZE": "The template of the page of size -o, unless --template names one.",
            },
        ),
        "FILES": (
            "",
            {
                "X.map": "The map of the code X, if no comment in X names one.",
                "X.map.smc": "The compiled map of X.map, which resolve reads if it is fresh.",
                "X.map.contents.smc": "The contents of its sources, if compile wrote them apart.",
                "../share/sourcemap/page.html": "The template of page, from the folder of the program.",
                "../share/sourcemap/size.html": "The template of the page of size -o, from the folder of the program.",
            },
        ),
        "SEE ALSO": ("smap(1), oxc_sourcemap(3)", {}),
    },
}


def escaped(words):
    return "\n".join(f"\\&{it}" if it.startswith((".", "'")) else it for it in words.replace("\\", "\\e").replace("-", "\\-").splitlines())


def sections(program):
    """The last sections of the page of a program."""
    out = ""
    for name, (first, rows) in SECTIONS[program].items():
        out += f".SH {name}\n" + (f"{escaped(first)}\n" if first else "")
        out += "".join(f".TP\n.B {escaped(word)}\n{escaped(said)}\n" for word, said in rows.items())
    return out


def usage():
    """What `smap --help` says, as ./smap of the repository has it, for the program where it is installed."""
    return re.search(r"cat <<'TEXT'\n(.*?)^TEXT\n", (TOP / "smap").read_text(), re.S | re.M)[1].replace("./s", "s")


def smap_page():
    """The page of the manual of smap: what its help says."""
    return (
        f'.TH SMAP 1 "" "junketscarp {VERSION}" "User Commands"\n.SH NAME\nsmap \\- read, write, look up, join and remap source maps at a shell\n'
        f".SH SYNOPSIS\n.B smap\n[\\-\\-where] COMMAND < INPUT\n.SH DESCRIPTION\n.nf\n{escaped(usage().partition(chr(10))[2])}\n.fi\n"
        + sections("smap")
    )


def completions():
    """What completes the words of smap, for bash, zsh and fish."""
    bash = f"complete -W '{COMMANDS} {' '.join(f'--{it}' for it in OPTIONS)}' smap\n"
    zsh = " ".join(f"'--{it}[{said}]'" for it, said in OPTIONS.items())
    fish = "".join(f"complete -c smap -l {it} -d '{said}'\n" for it, said in OPTIONS.items())
    return (
        bash,
        f"#compdef smap\n_arguments {zsh} '1:command:({COMMANDS})'\n",
        f"complete -c smap -f -n __fish_use_subcommand -a '{COMMANDS}'\n{fish}",
    )
