"""What the commands in Python share: help, version and usage, files that are read and written whole,
and programs over the archive. A command's help is its text at the head, in which one line begins with
`usage: `."""
import os
import platform
import re
import shutil
import stat
import subprocess
import sys

TOOLS = os.path.dirname(os.path.abspath(__file__))
ROOT = os.path.dirname(TOOLS)
ARCHIVE = os.path.join(ROOT, "target", "staticlib", "libwatch_c.a")
INCLUDE = os.path.join(ROOT, "include")


class Missing(Exception):
    """Something that has to be there is not: status 2."""


# Words of a command

def packaged():
    """Whether this is an installed package and no repository: there all is built."""
    return not os.path.exists(os.path.join(ROOT, "crates.txt"))


def name():
    """The command's name: from the repository on, or that of the package."""
    path = os.path.relpath(os.path.abspath(sys.argv[0]), ROOT)
    return "rugbemasho-" + os.path.basename(path) if packaged() else path


def version():
    """The version of the face, which every command has."""
    with open(os.path.join(INCLUDE, "watch.h"), encoding="utf-8") as file:
        return re.search(r"^#define WATCH_VERSION +(\d+)$", file.read(), re.M).group(1)


def answered(text, words):
    """Whether a word asked for help, which is this text, or for the version: then it has been said."""
    for word in words:
        if word in ("-h", "--help"):
            print(text.strip())
            return True
        if word == "--version":
            print(name(), version())
            return True
    return False


def usage(text):
    """Says how the command is called, where its words are no such thing. The status is 2."""
    print(re.search(r"^usage: .*$", text, re.M).group(0), file=sys.stderr)
    return 2


def sorted_out(words, flags=(), valued=()):
    """The plain words, the flags that are there, and the words behind those that have one; None where they are no such thing."""
    plain, there, values, left = [], set(), {}, list(words)
    while left:
        word = left.pop(0)
        if word in flags and word not in there:
            there.add(word)
        elif word in valued and word not in values and left:
            values[word] = left.pop(0)
        elif word == "" or word.startswith("-"):
            return None
        else:
            plain.append(word)
    return plain, there, values


# Files

def read(*path):
    """A file's bytes. A pipe in the place of a list or table, for which one would wait for ever, is none."""
    path = os.path.join(*path)
    if path.endswith(".bin") and os.path.exists(path) and stat.S_ISFIFO(os.stat(path).st_mode):
        raise OSError(0, "this is a pipe, and no file", path)
    with open(path, "rb") as file:
        return file.read()


def texts_hint(data):
    """What helps where signature texts stand in the place of a list, as they begin; or nothing."""
    if re.match(rb"[0-9#]", data) and re.search(rb"^[0-9]{1,3}(=[A-Za-z0-9_-]+)? ", data, re.M):
        return "this holds signature texts: tools/signatures makes a list of such a file"
    return None


def write_whole(folder, files):
    """Writes files of a folder, by name: each new one is whole before it takes the place of the old one."""
    new = {name: os.path.join(folder, name + ".new") for name in files}
    for name in files:
        path = os.path.join(folder, name)
        if os.path.exists(path) and not os.path.isfile(path):
            raise OSError(0, "this is no file, and stays as it is", path)
    try:
        for name, data in files.items():
            with open(new[name], "wb") as file:
                file.write(data)
                file.flush()
                os.fsync(file.fileno())
        for name, path in new.items():
            os.replace(path, os.path.join(folder, name))
    finally:
        for path in new.values():
            if os.path.isfile(path):
                os.remove(path)


# Programs over the archive

def compiler():
    """The words that compile for x86-64, and those before such a program."""
    if platform.machine() == "x86_64":
        words, before, packages = ["gcc"], [], {"gcc": "gcc"}
    else:
        words, before = ["x86_64-linux-gnu-gcc", "-static"], ["qemu-x86_64"]
        packages = {"x86_64-linux-gnu-gcc": "gcc-x86-64-linux-gnu", "qemu-x86_64": "qemu-user"}
    for program, package in packages.items():
        if shutil.which(program) is None:
            raise Missing("no %s; Debian's package %s has it" % (program, package))
    return words, before


def over_archive(program):
    """The words that run bindings/c/PROGRAM.c over the archive. Both are made where they are missing or old; what that needs is looked for first."""
    if packaged():
        return ([] if platform.machine() == "x86_64" else ["qemu-x86_64"]) + [os.path.join(ROOT, "target", program)]
    words, before = compiler()
    if subprocess.run([os.path.join(TOOLS, "build-c")], stdout=subprocess.DEVNULL, check=False).returncode != 0:
        raise Missing("there is no archive: tools/build-c makes it")
    folder, out = os.path.join(ROOT, "bindings", "c"), os.path.join(ROOT, "target", program)
    sources = [os.path.join(folder, name) for name in os.listdir(folder)] + [ARCHIVE, os.path.join(INCLUDE, "watch.h")]
    if not os.path.exists(out) or os.path.getmtime(out) < max(map(os.path.getmtime, sources)):
        new = "%s.%d" % (out, os.getpid())
        made = [*words, "-std=c11", "-O2", "-I" + INCLUDE, os.path.join(folder, program + ".c"), ARCHIVE, "-o", new]
        if subprocess.run(made, check=False).returncode != 0:
            raise Missing("bindings/c/%s.c does not compile" % program)
        os.replace(new, out)
    return before + [out]
