"""For the tools beside it: where the kit is, which rooms stand on which, as crates.txt has them, and the words that rattle checks or builds a room with."""
import hashlib
import os
import re
import shutil
import sys

TOP = os.path.normpath(os.path.join(os.path.dirname(os.path.abspath(__file__)), ".."))
RT = shutil.which("rt") or sys.exit("kit.py: the kit's `rt` is not on the path")
KIT = os.path.normpath(os.path.join(os.path.dirname(os.path.realpath(RT)), ".."))
RATTLE = KIT + "/bin/rattle"


def text_of(path):
    with open(path, encoding="utf-8") as file:
        return file.read()


def rooms():
    """Each room and what it stands on, the kit's libraries too; and which rooms are static libraries."""
    below, static = {}, set()
    for line in text_of(TOP + "/crates.txt").split("\n"):
        found = re.match(r"(\w+)( staticlib)?:([^#]*)", line)
        if found:
            below[found[1]] = found[3].split()
            static |= {found[1]} if found[2] else set()
    return below, static


def rooms_below(room, below):
    """The rooms that a room stands on, each after those that it stands on itself."""
    found = []
    for name in below[room]:
        if name in below:
            found += [it for it in [*rooms_below(name, below), name] if it not in found]
    return found


def root_of(folder):
    return [f for f in ("src/main.rt", "src/lib.rt") if os.path.exists("%s/%s" % (folder, f))][0]


def logic():
    return ["--antt-project", KIT + "/rattle/logic/antt-project.json", "--logic-built", KIT + "/logic_built"]


def words(room):
    """The words for rattle, called in a folder with the room's files, over the libraries that stand in the rooms' out/."""
    below, static = rooms()
    own = rooms_below(room, below)
    rlib = lambda name: "%s/crates/%s/out/rlib" % (TOP, name) if name in below else KIT + "/rlibs"
    said = ["--crate-name", room, root_of("%s/crates/%s" % (TOP, room))]
    for name in ["std", *below[room]]:
        said += ["--extern", "%s=%s/%s.rlib" % (name, rlib(name), name)]
    for folder in [KIT + "/rlibs", *map(rlib, own)]:
        said += ["-L", "dependency=" + folder]
    return [*said, "--links", room + "=", *logic(), *(["--crate-type", "staticlib"] if room in static else [])]


def toolchain_in(folder, script):
    """The kit's toolchain by links, with a script in place of its clang."""
    for below, _, files in os.walk(KIT + "/toolchain"):
        to = folder + below[len(KIT + "/toolchain"):]
        os.makedirs(to)
        for file in files:
            if file != "clang":
                os.symlink(os.path.join(below, file), os.path.join(to, file))
    with open(folder + "/bin/clang", "w", encoding="utf-8") as file:
        file.write(script)
    os.chmod(folder + "/bin/clang", 0o755)


def sources_sum(room):
    """A sum of all that a room is made from: the kit, and the sources of the room and of those below it."""
    told = hashlib.sha256(text_of(KIT + "/KIT-ID").encode())
    for name in [*rooms_below(room, rooms()[0]), room]:
        for part in ("src", "specs", "proofs"):
            for folder, folders, files in os.walk("%s/crates/%s/%s" % (TOP, name, part)):
                folders.sort()
                for file in sorted(files):
                    path = os.path.join(folder, file)
                    told.update(("%s\n%s\n" % (os.path.relpath(path, TOP), text_of(path))).encode())
    return told.hexdigest()
