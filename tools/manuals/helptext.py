"""What the help texts of the program say: its commands, with their arguments and options."""

import re

# The line before what a command prints, in the file of the help texts.
ASKED = re.compile(r"\$ vsc(?: (\w+))? --(help|version)")


class Option:
    """An option: its short and long name, what its value is called, if it takes one, and its sentence."""

    def __init__(self, short, long, value, said):
        self.short, self.long, self.value, self.said = short, long, value, said

    def names(self):
        return [it for it in (self.short, self.long) if it]


class Command:
    """A command, or the program itself: what it does, its usage, its arguments, options and commands, and the text after them."""

    def __init__(self, name, text):
        self.name, self.arguments, self.options, self.commands, self.rest = name, [], [], [], []
        about, _, self.after = text.partition("\n\nUsage: ")
        self.about = " ".join(about.split())
        self.usage, _, sections = self.after.partition("\n")
        self.take(sections.strip("\n").split("\n"))

    def take(self, lines):
        """Takes the lines after the usage: tables with a head, and then the text."""
        tables = {"Arguments:": self.take_argument, "Options:": self.take_option, "Commands:": self.take_command}
        taken = None
        for at, line in enumerate(lines):
            if line in tables:
                taken = tables[line]
            elif taken and line.startswith("  "):
                taken(line)
            elif line:
                self.rest = lines[at:]
                return

    def take_argument(self, line):
        found = re.fullmatch(r"  [<\[](\w+)[>\]](\.\.\.)?  +(.*)", line)
        self.arguments.append((found[1], found[3], bool(found[2])))

    def take_option(self, line):
        found = re.fullmatch(r"  (?:(-\w),|   ) (--[\w-]+)(?: <(\w+)>)?  +(.*)", line)
        self.options.append(Option(found[1], found[2], found[3], found[4]))

    def take_command(self, line):
        found = re.fullmatch(r"  (\w+)  +(.*)", line)
        self.commands.append((found[1], found[2]))


class Help:
    """The program's help and that of each of its commands, in the order of the program's list."""

    def __init__(self, text):
        pieces = re.split(r"(?m)^(\$ vsc.*)\n", text)
        said = {}
        for asked, printed in zip(pieces[1::2], pieces[2::2]):
            found = ASKED.fullmatch(asked)
            said[found[1] or found[2]] = printed.strip("\n")
        self.version = said.pop("version").removeprefix("vsc ")
        self.program = Command(None, said.pop("help"))
        # `help` is the help of clap, which has no help of its own.
        self.commands = [Command(name, said[name]) for name, _ in self.program.commands if name != "help"]
        if set(said) != {it.name for it in self.commands}:
            raise ValueError("the help texts are not those of the commands that the program lists")

    def number(self):
        """The version alone, without what it was built with."""
        return self.version.split()[0]


def asked_of(run):
    """The file of the help texts: what `run` answers to the words of a command line, each below its line."""
    program = run(["--help"])
    names = [name for name, _ in Command(None, program).commands if name != "help"]
    asked = [(["--version"], run(["--version"])), (["--help"], program), *(([name, "--help"], run([name, "--help"])) for name in names)]
    return "\n".join(f"$ vsc {' '.join(words)}\n{printed.rstrip()}\n" for words, printed in asked)
