"""What the scripts of this folder share: usage, the repository's top, its crates, and the log of a gate."""
import collections
import os
import re
import signal
import subprocess
import sys

signal.signal(signal.SIGPIPE, signal.SIG_DFL)  # a reader that stops early, as head, is no error


def usage(text):
    """Ends with a script's own account of itself."""
    sys.exit(text.strip())


def at_top():
    """Goes to the top of the repository."""
    found = subprocess.run(["git", "rev-parse", "--show-toplevel"], capture_output=True, text=True)
    if found.returncode:
        sys.exit("%s is in no git repository: run this inside the repository" % os.getcwd())
    os.chdir(found.stdout.strip())
    if not os.path.exists("crates.txt"):
        sys.exit("no crates.txt in %s: run this inside the repository" % os.getcwd())


def crates():
    """The crates that crates.txt lists, in its order (a line is `name: ..` or `name staticlib: ..`)."""
    lines = (line.split("#")[0] for line in open("crates.txt"))
    return [line.split(":")[0].split()[0] for line in lines if ":" in line]


class Gate:
    """What a log of `rt ci` says: it has no seconds but those of `time`, if the gate was run under it."""

    def __init__(self, path):
        try:
            text = open(path, errors="replace").read()
        except OSError as error:
            sys.exit("%s: %s" % (path, error.strerror))
        self.proved, self.functions, self.ran, self.wrong = {}, collections.Counter(), collections.Counter(), []
        self.edits, self.kept_edits = collections.defaultdict(dict), collections.Counter()
        section = None
        for line in text.splitlines():
            begun = re.match(r"== (\w+)", line)
            if begun:
                section = begun.group(1)
            elif section and re.match(r"fn .*: proved$", line):
                self.functions[section] += 1
            if not line.startswith("rt: "):
                continue
            done = re.match(r"rt: (\w+) (proved|is kept: )", line)
            edit = re.match(r"rt: must-fail (\w+)/(\S+?)\.edit: refused, as it must be(.*)", line)
            earlier = re.match(r"rt: (\w+): (\d+) of its \d+ must-fail edits were tried by an earlier run", line)
            program = re.match(r"rt: (\w+) ran\b", line)
            if done:
                self.proved[done.group(1)] = "now" if done.group(2) == "proved" else "kept"
            elif edit:
                why = edit.group(3)
                weak = why.startswith(" (only")  # refused for a name that is gone, or by a limit
                self.edits[edit.group(1)][edit.group(2)] = (weak, why.lstrip(" :"))
            elif earlier:
                self.kept_edits[earlier.group(1)] = int(earlier.group(2))
            elif program:
                self.ran[program.group(1)] += 1
            elif re.search(r"NOT PROVED|NOT REFUSED|NOT TRIED|BAD EDIT|FAILED", line):
                self.wrong.append(line)
        if not self.proved:
            sys.exit("%s: no line 'rt: NAME proved' or 'rt: NAME is kept': is it a log of rt ci?" % path)
        ended = re.findall(r"^\d+ passed, \d+ failed.*$", text, re.M)
        clock = re.search(r"^real\s+(\S+)$", text, re.M)  # where the gate was run under `time`
        self.ended = ended and ended[-1] + (", in " + clock.group(1) if clock else "")
