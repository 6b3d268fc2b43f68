"""Divides histories among shards by code that shares nothing with the program, and runs the commands on the shards of a folder."""
import os
import re
from dataclasses import dataclass

from ..running import Program

# How many names a shard has for its objects, and the greatest object of a whole.
NAMES, LAST_OBJECT = 65_536, 4_294_967_295
# A map in the histories of tests, which have no maps in maps, and no strings.
MAP = re.compile(rb"\{[^{}]*\}")
# Its object.
OBJECT = re.compile(rb":object[\s,]+([-+]?\d+)")


def shard_of(on, shards):
    """The shard of an object."""
    return (on // NAMES + on % NAMES) % shards


def name_of(on):
    """The name of an object in its shard."""
    return on % NAMES


def shards_needed(on):
    """The least number of shards into which a whole with this object is divided."""
    return on // NAMES + 1


def object_of(text):
    """The object of a map of a client, or None: the map is ignored."""
    if re.search(rb":process[\s,]*:", text):
        return None
    named = OBJECT.search(text)
    return int(named[1]) if named else 0


def in_its_shard(text, on):
    """A map on this object as its shard has it: a name that is another number is in the place of the number, and all else is as it is written."""
    return text if on < NAMES else text[: OBJECT.search(text).start(1)] + b"%d" % name_of(on) + text[OBJECT.search(text).end(1) :]


def counts_text(counts):
    """The text of the file `shards` where the shards have these numbers of maps."""
    return b"".join(b"%d\n" % number for number in (len(counts), *counts))


def divided(history, shards):
    """The files of the shards of a history: of each shard the maps, and their places, and the numbers of these."""
    files = {f"{shard}.{ending}": [] for shard in range(shards) for ending in ("edn", "places")}
    for place, text in enumerate(MAP.findall(history.encode() if isinstance(history, str) else history)):
        on = object_of(text)
        if on is not None:
            files[f"{shard_of(on, shards)}.edn"].append(in_its_shard(text, on))
            files[f"{shard_of(on, shards)}.places"].append(str(place).encode())
    texts = {name: b"".join(line + b"\n" for line in those) for name, those in files.items()}
    return {**texts, "shards": counts_text([len(files[f"{shard}.places"]) for shard in range(shards)])}


def evidence_in_shards(found, numbers, shards):
    """The evidence for each shard, where this evidence is for a whole whose objects have these numbers instead."""
    of_shards = [[] for _ in range(shards)]
    for line in found.splitlines(keepends=True):
        head, on, rest = re.fullmatch(rb"(\{:object )(\d+)(.*\n)", line).groups()
        on = numbers[int(on)]
        of_shards[shard_of(on, shards)].append((name_of(on), head + b"%d" % name_of(on) + rest))
    return [b"".join(text for _, text in sorted(texts)) for texts in of_shards]


@dataclass(frozen=True)
class Folder:
    """A folder of shards, in the folder in which the program runs."""

    program: Program
    name: str
    shards: int

    def path(self, file=""):
        return f"{self.program.folder}/{self.name}/{file}"

    def split(self, history, **how):
        """Runs split on a history, which is the name of a file."""
        return self.program.run("split", history, self.name, "--shards", str(self.shards), **how)

    def make(self, history):
        """Makes the folder of a history as split does, without it."""
        os.makedirs(self.path(), exist_ok=True)
        for name, text in divided(history, self.shards).items():
            self.write(name, text)

    def find(self, shard, *options):
        """The evidence for a shard, as find prints it."""
        stem = f"{self.name}/{shard}"
        return self.program.run("find", f"{stem}.edn", "--places", f"{stem}.places", "--workers", "1", *options).out

    def find_all(self):
        """Writes the evidence for each shard that has maps, and returns that of all."""
        evidence = [self.find(shard) if os.path.getsize(self.path(f"{shard}.edn")) else b"" for shard in range(self.shards)]
        for shard, text in enumerate(evidence):
            if text:
                self.write(f"{shard}.evidence", text)
        return evidence

    def merge(self, *options, **how):
        return self.program.run("merge", self.name, *options, **how)

    def write(self, file, text):
        with open(self.path(file), "wb") as opened:
            opened.write(text)

    def is_whole(self):
        """Whether the folder says how many shards it has."""
        return os.path.exists(self.path("shards"))

    def names(self):
        """The names of the files that are in the folder, if it is there."""
        return os.listdir(self.path()) if os.path.isdir(self.path()) else []

    def files(self):
        """What is in the folder, if it is there: each file with its bytes."""
        files = {}
        for name in self.names():
            with open(self.path(name), "rb") as file:
                files[name] = file.read()
        return files


def judged(program, name, history):
    """What verify says of a whole history by what find prints of it, and that."""
    evidence = program.run("find", program.write(f"{name}.edn", history))
    return program.run("verify", f"{name}.edn", program.write(f"{name}.found", evidence.out)), evidence.out
