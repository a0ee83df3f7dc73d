"""The programs with a bug: which modules are made for them, and how they are linked."""

import collections
import hashlib
import os
import queue
import threading

import building
from building import NoModule, Reader, Sources
from planted import RIGHT, bugs, edited

# Why there is no program: the build fails, or no function that the program has is changed.
FAILED, SAME = "failed", "same"


class Programs:
    """Builds programs, and keeps them in a folder by the checksums of their sources."""

    def __init__(self, kept, room, jobs, seconds, stopping):
        self.kept, self.room, self.sources, self.lock = kept, room, Sources(), threading.Lock()
        self.readers = queue.Queue()
        for number in range(jobs):
            self.readers.put(Reader(f"{room}/{number}", self.sources, seconds, stopping))
        self.right = self.right_object = None
        self.failed, self.functions, self.modules = {}, {}, {}

    def key(self, name):
        """A checksum of the sources with one bug."""
        return self.sources.key(edited(name, bugs().get(name)))

    def place(self, name):
        return f"{self.kept}/{name.replace('/', '-')}-{self.key(name)}"

    def prepare(self, names, each):
        """Makes the modules of the bugs, and the object of the right program, in which all functions that a bug changes
        can be replaced; nothing if all programs are kept. `each` does some work for each of a list, as results come."""
        names = [name for name in names if not building.works(self.place(name))]
        if not names and building.works(self.place(RIGHT)):
            return
        for _ in each(self.make_right, [None]):
            pass
        todo = groups(names)
        while todo:
            halves = [half for halves in each(self.make_group, todo) for half in halves]
            todo = [half for half in halves if half]
        replaced = sorted({name for names in self.functions.values() for name in names})
        sum_of = hashlib.sha256(repr(replaced).encode()).hexdigest()[:12]
        self.right_object = f"{self.kept}/right-{self.sources.key({})}-{sum_of}.o"
        if not os.path.isfile(self.right_object):
            building.compiled(self.right.open_to(set(replaced)), self.right_object)
        if not building.works(self.place(RIGHT)):
            building.link([self.right_object], self.place(RIGHT))

    def module(self, texts):
        """The module with some texts, which is made if it is not there."""
        place = f"{self.kept}/module-{self.sources.key(texts)}"
        if not os.path.isfile(place):
            reader = self.readers.get()
            try:
                reader.module(texts, place)
            finally:
                self.readers.put(reader)
        return building.read_module(place)

    def make_right(self, _):
        self.right = self.module({})

    def make_group(self, group):
        """Makes the module of a group and says which functions each bug changes. If there is none, and several bugs,
        gives the halves of the group, for which it is tried again."""
        texts = {}
        for name in group:
            texts = edited(name, bugs()[name], texts)
        try:
            module = self.module(texts)
        except NoModule as why:
            if len(group) == 1:
                self.failed[group[0]] = str(why)
                return []
            return [group[: len(group) // 2], group[len(group) // 2 :]]
        changed = {name for name in self.right.changed(module) if name in self.right.functions}
        for name, functions in shares(changed, group).items():
            self.functions[name], self.modules[name] = functions, module
        return []

    def program(self, name):
        """The program with a bug, which is linked if it is not there; or none, and why, with what the build says."""
        place = self.place(name)
        if building.works(place):
            return place, None, ""
        if name in self.failed:
            return None, FAILED, self.failed[name]
        if not self.functions[name]:
            return None, SAME, ""
        text = self.modules[name].alone(self.functions[name], self.right.functions)
        part = building.compiled(text, f"{place}.o")
        building.link([part, self.right_object], place)
        return place, None, ""


def shares(changed, group):
    """The functions that each bug of a group changes."""
    if len(group) == 1:
        return {group[0]: changed}
    places = {name: building.places_of(edited(name, bugs()[name])) for name in group}
    found = {name: {it for it in changed if building.is_in(it, places[name])} for name in group}
    left = changed - set().union(*found.values())
    for name in group:
        found[name] = found[name] or {it for it in left if building.is_in(it, places[name], anywhere=True)}
    owned = collections.Counter(it for functions in found.values() for it in functions)
    unclear = [it for it in changed if owned[it] != 1]
    if unclear:
        raise ValueError(f"{unclear[0]} is changed by {owned[unclear[0]]} of {len(group)} bugs")
    return found


def groups(names):
    """The bugs in groups, no two of which in a group change the same function."""
    found, taken = [], []
    for name in names:
        places = building.places_of(edited(name, bugs()[name]))
        for group, seen in zip(found, taken):
            if not places & seen and joins(name, group):
                group.append(name)
                seen |= places
                break
        else:
            found.append([name])
            taken.append(set(places))
    return found


def joins(name, group):
    """Whether the edit of a bug applies after those of a group."""
    texts = {}
    try:
        for other in [*group, name]:
            texts = edited(other, bugs()[other], texts)
    except ValueError:
        return False
    return True
