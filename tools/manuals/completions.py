"""Completions of the command line, for bash, zsh and fish."""

# What a value of an option is completed to, by what help calls it: files, or nothing, as of a number.
FILES = ("FILE", "NAMES")
FOLDERS = ("FOLDER",)


def kind_of(value):
    return "files" if value in FILES else "folders" if value in FOLDERS else "none"


def takes_files(command):
    return bool(command.arguments)


# ---- bash

BASH = """# Completions of vsc for bash. Made by tools/manual of the help texts.
_vsc() {
    local current=${COMP_WORDS[COMP_CWORD]} before=${COMP_WORDS[COMP_CWORD - 1]} command= options= at
    COMPREPLY=()
    for ((at = 1; at < COMP_CWORD; at++)); do
        [[ ${COMP_WORDS[at]} == -* ]] || { command=${COMP_WORDS[at]}; break; }
    done
    if [[ -z $command ]]; then
        COMPREPLY=($(compgen -W "%(words)s" -- "$current"))
        return
    fi
    case $command:$before in
        %(folders)s) COMPREPLY=($(compgen -d -- "$current")); return ;;
        %(numbers)s) return ;;
        %(files)s) compopt -o filenames 2> /dev/null; COMPREPLY=($(compgen -f -- "$current")); return ;;
    esac
    case $command in
%(cases)s
    esac
    if [[ $current == -* ]]; then
        COMPREPLY=($(compgen -W "$options" -- "$current"))
    elif [[ $command != help && -n $options ]]; then
        compopt -o filenames 2> /dev/null
        COMPREPLY=($(compgen -f -- "$current"))
    fi
}
complete -F _vsc vsc
"""


def bash(known):
    pairs = [(command, option) for command in known.commands for option in command.options if option.value]

    def of_kind(kind):
        # A pattern that no command line has stands where there is no such option.
        return "|".join(f"{command.name}:{option.long}" for command, option in pairs if kind_of(option.value) == kind) or "-:-"

    words = [name for name, _ in known.program.commands] + [name for option in known.program.options for name in option.names()]
    listed = "|".join(command.name for command in known.commands)
    cases = [f"        {command.name}) options='{' '.join(it.long for it in command.options)}' ;;" for command in known.commands]
    cases.append(f"        help) COMPREPLY=($(compgen -W '{listed.replace('|', ' ')}' -- \"$current\")) ;;")
    return BASH % {"words": " ".join(words), "folders": of_kind("folders"), "numbers": of_kind("none"), "files": of_kind("files"), "cases": "\n".join(cases)}


# ---- zsh

ZSH = """#compdef vsc
# Completions of vsc for zsh. Made by tools/manual of the help texts.
_vsc() {
    local context state line
    local -a commands
    commands=(
%(commands)s
    )
    _arguments -C %(options)s '1: :->command' '*:: :->rest' && return
    case $state in
        command) _describe command commands ;;
        rest)
            case $words[1] in
%(cases)s
                help) _describe command commands ;;
            esac
            ;;
    esac
}
_vsc "$@"
"""
ZSH_KINDS = {"files": "_files", "folders": "_files -/", "none": " "}


def zsh_text(text):
    """A text within single quotes and brackets of `_arguments`."""
    return text.replace("'", "'\\''").replace("[", "\\[").replace("]", "\\]").replace(":", "\\:")


def zsh_option(option):
    names = option.names()
    head = "{" + ",".join(names) + "}'" if len(names) > 1 else f"'{names[0]}"
    value = f":{option.value}:{ZSH_KINDS[kind_of(option.value)]}" if option.value else ""
    return f"{head}[{zsh_text(option.said)}]{value}'"


def zsh_case(command):
    ends = [*(zsh_option(it) for it in command.options)]
    ends += [f"'{'*' if many else ''}:{name}:_files'" for name, _, many in command.arguments]
    return f"                {command.name}) _arguments " + " \\\n                    ".join(ends) + " ;;"


def zsh(known):
    commands = [f"        '{name}:{zsh_text(said)}'" for name, said in known.program.commands]
    options = " ".join(zsh_option(it) for it in known.program.options)
    return ZSH % {"commands": "\n".join(commands), "options": options, "cases": "\n".join(zsh_case(it) for it in known.commands)}


# ---- fish


def fish_text(text):
    return "'" + text.replace("\\", "\\\\").replace("'", "\\'") + "'"


def fish_option(condition, option, values):
    words = ["complete -c vsc", f"-n {fish_text(condition)}"] + ([f"-s {option.short[1:]}"] if option.short else []) + [f"-l {option.long[2:]}"]
    return " ".join([*words, *([values[kind_of(option.value)]] if option.value else []), f"-d {fish_text(option.said)}"])


def fish(known):
    values = {"files": "-r -F", "folders": "-x -a '(__fish_complete_directories)'", "none": "-x"}
    lines = ["# Completions of vsc for fish. Made by tools/manual of the help texts.", "complete -c vsc -f"]
    lines += [f"complete -c vsc -n __fish_use_subcommand -a {name} -d {fish_text(said)}" for name, said in known.program.commands]
    lines += [fish_option("__fish_use_subcommand", it, values) for it in known.program.options]
    for command in known.commands:
        condition = f"__fish_seen_subcommand_from {command.name}"
        lines += [f"complete -c vsc -n {fish_text(condition)} -F"] if takes_files(command) else []
        lines += [fish_option(condition, it, values) for it in command.options]
    lines.append(f"complete -c vsc -n '__fish_seen_subcommand_from help' -a {fish_text(' '.join(it.name for it in known.commands))}")
    return "\n".join(lines) + "\n"
