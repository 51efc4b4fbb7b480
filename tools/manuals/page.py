"""The manual page, in the macros of man(7)."""

import re
import textwrap


def roff(text):
    """A line as roff prints it: no character has a meaning of its own, and a hyphen is one that can be pasted."""
    made = text.replace("\\", "\\e").replace("-", "\\-").replace("'", "\\(aq").replace("`", "\\(ga").replace("~", "\\(ti").replace("^", "\\(ha")
    return f"\\&{made}" if made.startswith(".") else made


def as_it_stands(lines):
    return [".nf", *(roff(it) for it in lines), ".fi"]


def tagged(head, said):
    return [".TP", head, roff(said)]


def option_head(option):
    names = ", ".join(f"\\fB{roff(it)}\\fR" for it in option.names())
    return f"{names} \\fI{roff(option.value)}\\fR" if option.value else names


def paragraphs(lines):
    """A text as it stands: the lines of help have their own breaks, and examples are meant to be pasted."""
    return [".PP", *as_it_stands(lines)] if lines else []


def exit_statuses(lines):
    """The lines before `Exit status:`, and those after it."""
    at = lines.index("Exit status:") if "Exit status:" in lines else len(lines)
    before = lines[:at]
    while before and not before[-1]:
        before.pop()
    return before, [re.fullmatch(r"    (\d+)  (.*)", it).groups() for it in lines[at + 1 :] if it.strip()]


def usage(text):
    """The words of a usage: what is typed is bold, what stands for something else is in italics."""
    made = []
    for word in text.split():
        name = re.fullmatch(r"(\[?)<?([A-Z]+)>?(\]?)(\.\.\.)?", word)
        made.append(f"{name[1]}\\fI{name[2]}\\fR{name[3]}{name[4] or ''}" if name else f"\\fB{roff(word)}\\fR")
    return " ".join(made)


def command_lines(command):
    before, statuses = exit_statuses(command.rest)
    lines = [f'.SS "vsc {command.name}"', usage(command.usage), ".PP", f"{roff(command.about)}."]
    for name, said, _ in command.arguments:
        lines += tagged(f"\\fI{roff(name)}\\fR", said)
    for option in command.options:
        lines += tagged(option_head(option), option.said)
    lines += paragraphs(before)
    if statuses:
        lines += [".PP", "Exit status:"]
        lines += [it for number, said in statuses for it in tagged(f"\\fB{number}\\fR", said)]
    return lines


def made(known):
    """The manual page of the program."""
    before, statuses = exit_statuses(known.program.rest)
    lines = ['.\\" Made by tools/manual of the help texts.', f'.TH VSC 1 "" "vsc {known.number()}" "User Commands"']
    lines += [".SH NAME", "vsc \\- checks memory traces against sequential consistency", ".SH SYNOPSIS"]
    for command in known.commands:
        lines += [usage(command.usage), ".br"]
    lines[-1:] = [".SH DESCRIPTION", *textwrap.wrap(roff(known.program.about), 78), *paragraphs(before), ".SH COMMANDS"]
    for command in known.commands:
        lines += command_lines(command)
    lines += [".SH OPTIONS"]
    for option in known.program.options:
        lines += tagged(option_head(option), option.said)
    lines += [".SH EXIT STATUS", *(it for number, said in statuses for it in tagged(f"\\fB{number}\\fR", said))]
    lines += [".SH VERSION", f"vsc {roff(known.version)}"]
    return "\n".join(lines) + "\n"
