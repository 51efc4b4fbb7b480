"""Which wrong bodies have to be tried again.

The file must-fail.record has a line for each crate whose wrong bodies the prover has all refused: the crate's name, and a hash
of all that they were tried on. That is what git tracks of the crate's folder (its wrong bodies too) and of the folders of the
crates below it (theirs not, since nothing reads them), the lines of crates.txt of all of these, HANDLES, and the logic that the
kit names. Where one byte or one name of these is another, the hash is, and the crate's wrong bodies are tried again. A crate's documents
(`*.md` outside of src/, specs/ and proofs/) and the lines of its sources that are nothing but a comment are no part of it, since no check
reads them. Nor is the kit's own version: kits of one logic refuse by the same rules, and machines change between them; `./test --all`
tries all.
"""

import hashlib
import os
import re
import subprocess

NAME = "must-fail.record"
# How a line begins that is nothing but a comment, by the ending of the file's name.
COMMENTS = {".rt": b"//", ".antt": b"--"}
HEAD = (
    "# A line for each crate whose wrong bodies were all refused: its name, and a hash of all that they were tried on.\n"
    "# ./test writes this file, and tries again what differs.\n"
)


def listed(root, *words):
    """The paths that `git ls-files` lists, or None where git does not know the folder."""
    command = ["git", "-c", "safe.directory=*", "-C", root, "ls-files", "-z", *words]
    try:
        git = subprocess.run(command, stdout=subprocess.PIPE, stderr=subprocess.DEVNULL)
    except FileNotFoundError:
        return None
    return None if git.returncode else sorted({os.fsdecode(path) for path in git.stdout.split(b"\0") if path})


def walked(root):
    """The paths of all files but those that runs leave."""
    found = []
    for at, folders, files in os.walk(root):
        folders[:] = [it for it in folders if it not in (".git", "out", "__pycache__")]
        found += [os.path.relpath(os.path.join(at, it), root) for it in files]
    return sorted(found)


def tracked(root):
    """The paths of the files that git tracks and that are there, in order. Without git they are all files."""
    return [path for path in listed(root) or walked(root) if os.path.lexists(os.path.join(root, path))]


def untracked(root):
    """The paths of the files that git neither tracks nor ignores."""
    return (listed(root, "--others", "--exclude-standard") or []) if listed(root) else []


def commit(root):
    """The commit that is checked out, and whether a file that git tracks is another than there; the empty text without git."""

    def git(*words):
        return subprocess.run(["git", "-c", "safe.directory=*", "-C", root, *words], stdout=subprocess.PIPE, stderr=subprocess.DEVNULL)

    head = git("rev-parse", "--verify", "HEAD") if listed(root) else None
    if head is None or head.returncode:
        return ""
    return head.stdout.decode("ascii").strip() + (", with changes" if git("status", "--porcelain", "--untracked-files=no").stdout else "")


def kit_logic():
    """The logic that the kit names, as `logic dac8..`, or all that it says of itself if it names none."""
    said = subprocess.run(["rt", "version"], check=True, stdout=subprocess.PIPE).stdout
    logic = re.search(rb"logic [0-9a-f]+", said)
    return logic[0] if logic else said


def content(root, path):
    """What a file holds, with a first byte that tells a link from a file; nothing where it is not there."""
    whole = os.path.join(root, path)
    if os.path.islink(whole):
        return b"l" + os.fsencode(os.readlink(whole))
    if not os.path.isfile(whole):
        return b""
    with open(whole, "rb") as file:
        return b"f" + file.read()


def hash_of(parts):
    """A hash of a list of byte strings, in which no two lists run together."""
    made = hashlib.sha256()
    for part in parts:
        made.update(b"%d:" % len(part))
        made.update(part)
    return made.hexdigest()


def crate_lines(root):
    """For each crate of crates.txt: its line, and the words after the colon."""
    lines = {}
    for line in content(root, "crates.txt")[1:].decode().splitlines():
        said = line.partition("#")[0]
        left, _, right = said.partition(":")
        if left.split():
            lines[left.split()[0]] = (line, right.split())
    return lines


def below(name, lines):
    """The crates that a crate stands on, itself among them, in order of names."""
    found, left = set(), [name]
    while left:
        crate = left.pop()
        if crate not in found:
            found.add(crate)
            left += [it for it in lines[crate][1] if it in lines]
    return sorted(found)


def is_document(inside):
    """Whether a file of a crate is only to be read by people. In the folders of sources a check might read it."""
    return inside.endswith(".md") and inside.split("/")[0] not in ("src", "specs", "proofs")


def files_of(name, paths):
    """The tracked files of a crate, in two lists: those that its proof may read, and its wrong bodies. Documents and what builds leave are in neither."""
    folder = f"crates/{name}/"
    files = [path for path in paths if path.startswith(folder) and not path.startswith(folder + "out/")]
    files = [path for path in files if not is_document(path[len(folder):])]
    is_body = [path.startswith(folder + "must-fail/") for path in files]
    return [it for it, yes in zip(files, is_body) if not yes], [it for it, yes in zip(files, is_body) if yes]


def without_comments(path, text):
    """What a file holds, without the lines that are nothing but a comment. If a string might begin in one line and end in another, all
    stays, since such a line may then be a part of the string."""
    mark = COMMENTS.get(os.path.splitext(path)[1])
    if mark is None:
        return text
    kind, lines = text[:1], text[1:].split(b"\n")
    left = [line for line in lines if not line.lstrip().startswith(mark)]
    return text if any(line.count(b'"') % 2 for line in left) else kind + b"\n".join(left)


def with_content(root, paths):
    """The paths, each followed by what its file holds that a check may read."""
    return [it for path in paths for it in (os.fsencode(path), without_comments(path, content(root, path)))]


def wrong_bodies(paths):
    """For each crate that has some: the files of its folder must-fail. One that is no wrong body is never refused."""
    found = {}
    for path in paths:
        parts = path.split("/", 3)
        if len(parts) == 4 and parts[0] == "crates" and parts[2] == "must-fail" and not path.endswith(".md"):
            found.setdefault(parts[1], set()).add(parts[3])
    return found


def hashes(root, paths, logic):
    """For each crate of crates.txt the hash of all that its wrong bodies are tried on."""
    lines = crate_lines(root)
    proved, tried = {}, {}
    for name, (line, _) in lines.items():
        files, bodies = files_of(name, paths)
        proved[name] = hash_of([name.encode(), line.encode(), *with_content(root, files)]).encode()
        tried[name] = hash_of(with_content(root, bodies)).encode()
    common = [logic, content(root, "HANDLES")]
    return {name: hash_of([name.encode(), *common, tried[name], *[proved[it] for it in below(name, lines)]]) for name in lines}


def read(root):
    """The hash that the record has for each crate. A crate of two lines has none, nor has any by a line that is not understood."""
    found, twice = {}, set()
    for line in content(root, NAME)[1:].decode(errors="replace").splitlines():
        entry = re.fullmatch(r"(\w+) ([0-9a-f]{64})", line)
        if entry:
            twice |= {entry[1]} & set(found)
            found[entry[1]] = entry[2]
    return {name: it for name, it in found.items() if name not in twice}


def write(root, entries):
    """Writes the record, if it changes."""
    text = HEAD + "".join(f"{name} {it}\n" for name, it in sorted(entries.items()))
    path = os.path.join(root, NAME)
    if content(root, NAME) != b"f" + text.encode():
        with open(path + ".new", "w", encoding="utf-8") as file:
            file.write(text)
        os.replace(path + ".new", path)


class Plan:
    """Whose wrong bodies a run tries: those of the crates for which the record has not the hash of today."""

    def __init__(self, root, paths, logic, entries):
        self.hashed = hashes(root, paths, logic)
        self.bodies = {name: it for name, it in wrong_bodies(paths).items() if name in self.hashed}
        self.tried = sorted(name for name in self.bodies if entries.get(name) != self.hashed[name])

    def left_out(self):
        return sorted(set(self.bodies) - set(self.tried))

    def lines(self):
        """A line for each crate that has wrong bodies, and one that counts."""
        for name in sorted(self.bodies):
            count = f"{len(self.bodies[name])} wrong bodies"
            yield f"{name}: {count}, " + ("to be tried" if name in self.tried else "refused before, and nothing has changed")
        number = sum(len(self.bodies[name]) for name in self.tried)
        yield f"to be tried: {number} wrong bodies of {len(self.tried)} crates, of {len(self.bodies)} crates that have some"

    def all_refused(self, log):
        """The crates that were tried and of which a log of `tools/try-wrong-bodies` says that each wrong body was refused."""
        said = re.findall(r"(?m)^must-fail (\w+)/(\S+\.edit): (refused, as it must be)?", log)
        refused = {(name, edit) for name, edit, well in said if well} - {(name, edit) for name, edit, well in said if not well}
        return [name for name in self.tried if all((name, edit) in refused for edit in self.bodies[name])]

    def updated(self, log, entries):
        """The record after a run: what was refused has the hash of today, and what was tried and not refused has none."""
        kept = {name: it for name, it in entries.items() if name in self.bodies and name not in self.tried}
        return {**kept, **{name: self.hashed[name] for name in self.all_refused(log)}}
