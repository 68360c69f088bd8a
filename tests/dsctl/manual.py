"""The manual page and the completions, made from the program's help."""
import os
import pathlib
import re
import subprocess
from dataclasses import dataclass
from typing import List, Tuple

ROOT = pathlib.Path(__file__).resolve().parents[2]
MADE = "made by tests/dsctl/manual from the program's help"
NO_MORE = "'*:no other argument, options begin with -: '"  # what zsh shows instead of the options if no dash is typed
HELP = "help"  # the command whose words are the names of the others
TABBED = '"%s\\t%s\\n"'  # how fish prints each word and its text
OF_FILE = " <FILE>"  # how an option ends that takes a file's name
MANY = 16  # numbers of an option that span this many aren't offered one by one
EXAMPLES = ("Example session", "Two replicas", "A driver that dies")  # how the paragraphs with examples begin
OF_LINES = "new over first later label u32 str mem file net block character up down refresh help quit exit".split()  # beside the first words of lines
AT_A_TERMINAL = [
    "\\(haC ends \\fBdsctl\\fR, and with it the stores. \\fBdsctl\\-prompt\\fR takes the same words and starts \\fBdsctl\\fR so that \\(haC takes back the",
    "line that is typed, and the session stays. With \\fBrlwrap\\fR(1) installed it has history, editing, and words at the Tab key, too.",
]
SEE_ALSO = [
    "\\fBrlwrap\\fR(1).",
    "In the documents of Pengtawis: docs/guide/, a page for each task; docs/reference/lines.md, all lines and answers;",
    "docs/reference/refusals.md, a session for each refusal; docs/reference/minix.md, MINIX 3's calls; examples/README.md, scripts and pictures.",
]
ESCAPES = {"\\": "\\e", "-": "\\-", "`": "\\(ga", "'": "\\(aq", "^": "\\(ha", "~": "\\(ti"}


@dataclass
class Help:
    """The parts of what `--help` prints."""

    about: str  # before the usage
    usage: str
    commands: List[Tuple[str, str]]  # words, and what each does
    arguments: List[Tuple[str, str]]  # as `[FILE]`, and what each is
    options: List[Tuple[str, str]]  # as `-h, --help`, and what each does
    rest: str  # after the options


def said(program, *words):
    """Returns what the program prints."""
    return subprocess.run([program, *words], stdin=subprocess.DEVNULL, capture_output=True, check=True).stdout.decode()


def read_help(text):
    """Splits a help into its parts."""
    about, usage, rest = re.fullmatch(r"(.*?)\n*^Usage: (.*?)$\n*(.*)", text, re.DOTALL | re.MULTILINE).groups()
    commands, rest = section("Commands", rest)
    arguments, rest = section("Arguments", rest)
    options, rest = section("Options", rest)
    return Help(about.strip("\n"), usage, commands, arguments, options, rest.strip("\n"))


def section(title, text):
    """Returns the rows below a title, if the text begins with it, and what follows them."""
    if not text.startswith(f"{title}:\n"):
        return [], text
    rows, at = [], 1
    lines = text.split("\n")
    while at < len(lines) and (not lines[at] or lines[at].startswith("  ")):
        row = re.fullmatch(r"  (?:    )?(-\S.*?|\w\S*|\[\w+\])(?:  +(.*))?", lines[at])
        if row:
            rows.append((row[1], row[2] or ""))
        elif lines[at].strip():
            word, about = rows.pop()
            rows.append((word, f"{about} {lines[at].strip()}".strip()))
        at += 1
    return rows, "\n".join(lines[at:])


def shown(text):
    """Returns a text in the manual's language."""
    escaped = "".join(ESCAPES.get(it, it) for it in text)
    return "\\&" + escaped if escaped.startswith(".") else escaped


def paragraphs(text):
    """Returns the lines of a text. Indented rows are shown unchanged, from the margin on, since they are as wide as a terminal."""
    lines, plain = [], False
    for line in text.split("\n"):
        row = line.startswith("  ")
        if row and not plain:
            lines += [".nf", ".in 0"]
        elif plain and not row:
            lines += [".fi", ".in"]
        plain = row
        lines.append(shown(line) if line.strip() else ".PP")
    return lines + [".fi", ".in"] * plain


def blocks(text):
    """Returns the paragraphs of a text, by whether they are shown among the examples, the statuses or elsewhere."""
    found = {"EXAMPLES": [], "EXIT STATUS": [], "": []}
    for block in text.split("\n\n"):
        if block.startswith(EXAMPLES):
            found["EXAMPLES"].append(block)
        elif block.startswith("Exit status:\n"):
            found["EXIT STATUS"].append(block.partition("\n")[2])
        else:
            found[""].append(block)
    return {title: "\n\n".join(it) for title, it in found.items()}


def entries(rows):
    """Returns a tagged paragraph for each row."""
    return [line for word, about in rows for line in (".TP", f"\\fB{shown(word)}\\fR", shown(about))]


def manual(version, whole, parts):
    """Returns the manual page."""
    short = whole["short"].about.split("\n")[0]
    help_ = whole["long"]
    lines = [f'.\\" {MADE}', f'.TH DSCTL 1 "" "{version}" "User Commands"', ".SH NAME", shown(f"dsctl - {short[0].lower()}{short[1:]}"), ".SH SYNOPSIS"]
    for usage in [help_.usage, *(it.usage for it, _ in parts.values()), f"dsctl {HELP} [COMMAND | WORD]"]:
        lines += [f"\\fB{shown(usage)}\\fR", ".br"]
    about, rest = blocks(help_.about), blocks(help_.rest)
    description, title, lines_of_scripts = about[""].partition("Lines of a script:\n")
    lines += [".SH DESCRIPTION", *paragraphs(description.strip()), ".SH OPTIONS", *entries(help_.arguments + help_.options), ".SH COMMANDS"]
    for name, (it, _) in parts.items():
        lines += [f".SS {name}", *paragraphs(it.about), *entries(it.arguments + it.options)]
    lines += [f".SS {HELP}", shown(dict(help_.commands)[HELP]), ".PP", "With a WORD of a line, an answer, a refusal or a kind, print what is said of it below."]
    limits = parts["replay"][0].rest.rpartition("\n\n")[2]
    lines += [".SH LINES", *paragraphs(title + lines_of_scripts), ".PP", *paragraphs(limits)]
    lines += [".SH REFUSALS", *paragraphs(rest[""]), ".SH EXIT STATUS", *paragraphs(rest["EXIT STATUS"])]
    lines += [".SH EXAMPLES", *paragraphs(f"{rest['EXAMPLES']}\n\n{about['EXAMPLES']}"), ".SH AT A TERMINAL", *AT_A_TERMINAL, ".SH SEE ALSO", *SEE_ALSO]
    return "\n".join(lines) + "\n"


def words_of(rows):
    """Returns the single words of options, without the values after them."""
    return [word.split()[0] for names, _ in rows for word in names.split(", ")]


def numbers_of(rows):
    """Returns the numbers that each option takes, by the option: those that its text names, if they are few."""
    valued = [(word, about) for names, about in rows for word in names.split(", ") if " " in word and not word.endswith(OF_FILE)]
    return {word.split()[0]: few(about) for word, about in valued}


def few(about):
    """Returns the numbers that a text names, as `1 or 2` or `1 to 8`; none if they are many."""
    each = re.match(r"(\d+) or (\d+)\b", about)
    if each:
        return list(each.groups())
    first, last = map(int, re.search(r"\b(\d+) to (\d+)\b", about).groups())
    return [str(it) for it in range(first, last + 1)] if last - first < MANY else []


def bash(whole, parts):
    """Returns the completions for bash."""
    options = {name: " ".join(words_of(it.options)) for name, (it, _) in parts.items()}
    options |= {HELP: " ".join(parts)}
    commands = "|".join(options)
    cases = "".join(f'        {name}) words="{words}" ;;\n' for name, words in options.items())
    numbers = {(name, word): " ".join(few) for name, (it, _) in parts.items() for word, few in numbers_of(it.options).items()}
    values = "".join(f'        {name}:{word}) words="{few}" is_number=1 ;;\n' for (name, word), few in numbers.items())
    without = "|".join(f"{name}:*" for name in options if name == HELP or not parts[name][0].arguments)
    return f"""# Completions for bash, {MADE}.
_dsctl() {{
    local at command= is_number= file words="{" ".join(words_of(whole["long"].options))}"
    local current=${{COMP_WORDS[COMP_CWORD]}} before=${{COMP_WORDS[COMP_CWORD - 1]}}
    for ((at = 1; at < COMP_CWORD; at++)); do
        case ${{command:-${{COMP_WORDS[at]}}}} in
            {commands}) command=${{command:-${{COMP_WORDS[at]}}}} ;;
        esac
    done
    case $command in
{cases}    esac
    # bash takes an equals sign for a word of its own
    if [[ $current == "=" ]]; then
        current=
    elif [[ $before == "=" ]]; then
        before=${{COMP_WORDS[COMP_CWORD - 2]}}
    fi
    case $command:$before in
{values}    esac
    # options are offered after a dash; elsewhere bash completes a file by itself, if one is taken there
    case $command:$is_number:$current in
        *:1:*|*:*:-*|{HELP}:*) ;;
        *) words= ;;
    esac
    [[ $COMP_CWORD != 1 || $current == -* ]] || words="{" ".join(options)}"
    COMPREPLY=($(compgen -W "$words" -- "$current"))
    case $command:$is_number in
        {without}|*:1) compopt +o default 2> /dev/null || : ;;
    esac
    # the first word may also be a file
    if [[ $COMP_CWORD == 1 && $current != -* ]]; then
        while IFS= read -r file; do
            COMPREPLY+=("$file")
        done < <(compgen -f -- "$current")
        compopt -o filenames 2> /dev/null || :
    fi
}}
complete -o default -F _dsctl dsctl
"""


def quoted_for_zsh(text):
    """Returns a text in quotes for zsh, which has no escape within them: the quotes end before an apostrophe."""
    return "'" + text.replace("'", "'\\''") + "'"


def quoted_for_fish(text):
    """Returns a text in quotes for fish."""
    return "'" + text.replace("\\", "\\\\").replace("'", "\\'") + "'"


def zsh(whole, parts):
    """Returns the completions for zsh."""

    def argument(word, about, numbers):
        option, _, value = word.partition(" ")
        about = about.replace("[", "(").replace("]", ")").replace(":", "\\:")
        few = numbers.get(option)
        if word.endswith(OF_FILE):
            return quoted_for_zsh(f"{option}[{about}]:file:_files")
        return quoted_for_zsh(f"{option}[{about}]" + (f":number:({' '.join(few)})" if few else ":number: " if value else ""))

    def arguments(help_):
        numbers = numbers_of(help_.options)
        options = [argument(word, about, numbers) for names, about in help_.options for word in names.split(", ")]
        return " ".join(options + ["'1:file:_files'"] * bool(help_.arguments) + [NO_MORE])

    commands = " ".join(quoted_for_zsh(f"{name}:{about}") for name, about in whole["long"].commands)
    cases = "".join(f"        {name}) _arguments {arguments(it)} ;;\n" for name, (it, _) in parts.items())
    return f"""#compdef dsctl
# Completions for zsh, {MADE}.
_dsctl() {{
    local -a commands=({commands})
    if (( CURRENT == 2 )); then
        _describe command commands
        _arguments {arguments(whole["long"])}
        return
    fi
    shift words
    (( CURRENT-- ))
    case $words[1] in
{cases}        {HELP}) _describe command commands ;;
    esac
}}
if [[ $funcstack[1] = _dsctl ]]; then
    _dsctl "$@"
else
    compdef _dsctl dsctl
fi
"""


def fish(whole, parts):
    """Returns the completions for fish."""

    def option(condition, names, about, numbers):
        words = [it.partition(" ") for it in names.split(", ")]
        flags = " ".join(f"-l {it[2:]}" if it.startswith("--") else f"-s {it[1:]}" for it, _, _ in words)
        few = next((numbers[it] for it, _, value in words if it in numbers), None)
        valued = " -r -F" if names.endswith(OF_FILE) else "" if few is None else " -x" + f" -a '{' '.join(few)}'" * bool(few)
        return f"complete -c dsctl -n {condition} {flags}{valued} -d {quoted_for_fish(about)}"

    def options(condition, rows):
        numbers = numbers_of(rows)
        return [option(condition, *row, numbers) for row in rows]

    lines = [f"# Completions for fish, {MADE}.", "complete -c dsctl -f"]
    described = " ".join(f"{name} {quoted_for_fish(about)}" for name, about in whole["long"].commands)
    first = f"(printf {TABBED} {described}; __fish_complete_path (commandline -ct))"  # in this order: -F would sort files to the front
    lines.append(f"complete -c dsctl -n __fish_use_subcommand -k -a {quoted_for_fish(first)}")
    lines += options("__fish_use_subcommand", whole["long"].options)
    reading = [name for name, (it, _) in parts.items() if it.arguments]
    lines.append(f"complete -c dsctl -n '__fish_seen_subcommand_from {' '.join(reading)}' -F")
    for name, (it, _) in parts.items():
        lines += options(f"'__fish_seen_subcommand_from {name}'", it.options)
    described = " ".join(f"{name} {quoted_for_fish(about)}" for name, about in whole["long"].commands if name != HELP)
    lines.append(f"complete -c dsctl -n '__fish_seen_subcommand_from {HELP}' -k -a {quoted_for_fish(f'(printf {TABBED} {described})')}")
    return "\n".join(lines) + "\n"


def words(whole):
    """Returns the words of a script's lines, of the prompt, and those that help explains in lower case, for rlwrap."""
    help_ = whole["long"]
    lines = help_.about.partition("Lines of a script:\n")[2].partition("\n\n")[0]
    commands = re.findall(r"^  (\w+)", lines, re.MULTILINE)
    refusals = re.findall(r"^  (\w+) {2,}", help_.rest.partition("Words after `refused`")[2].partition("Exit status:")[0], re.MULTILINE)
    texts = [help_.about.partition(it)[2].partition("\n\n")[0] for it in ("Answers:\n", "Parts of lines and answers:\n")]
    explained = re.findall(r"^  ([a-z]+)", "\n".join(texts), re.MULTILINE)
    return "".join(f"{it}\n" for it in sorted({*commands, *refusals, *explained, *OF_LINES}))


def made(program):
    """Returns the texts that are made from the program's help, by their paths."""
    program = os.path.abspath(program)
    whole = {"short": read_help(said(program, "-h")), "long": read_help(said(program, "--help"))}
    names = [name for name, _ in whole["long"].commands if name != HELP]
    parts = {name: (read_help(said(program, name, "--help")), name) for name in names}
    version = said(program, "--version").strip()
    return {
        ROOT / "tools" / "man" / "dsctl.1": manual(version, whole, parts),
        ROOT / "tools" / "completions" / "dsctl.bash": bash(whole, parts),
        ROOT / "tools" / "completions" / "_dsctl": zsh(whole, parts),
        ROOT / "tools" / "completions" / "dsctl.fish": fish(whole, parts),
        ROOT / "tools" / "completions" / "dsctl.words": words(whole),
    }
