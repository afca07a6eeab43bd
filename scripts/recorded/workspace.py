"""Units of a recorded build as the text of a workspace file."""

import fnmatch
import os

from compiler import head_and_body, own_parameters
from options import Odd
from record import Refused

MOST_UNITS = 8192
MOST_BYTES = 1 << 22
# Macros that a unit has before its settings, and whose values the program gives.
FIRST = ("__STDC__", "__STDC_HOSTED__", "__STDC_VERSION__", "__DATE__", "__TIME__", "_Pragma", "__has_include", "__has_include_next")
# Those of them whose values tell of the command, as of `-std=c99` and `-ffreestanding`: units of GNU C get the compiler's.
BY_COMMAND = ("__STDC_HOSTED__", "__STDC_VERSION__")
# Those of them that ask for a header.
HEADERS_ASKED = ("__has_include", "__has_include_next")
# What `__has_builtin` is asked about.
BUILT_IN = ("__builtin_", "__sync_", "__atomic_")
# What the settings of a unit may come to before a project line begins them anew; the program takes 2^16 bytes.
MOST_SETTINGS = 48_000


class Kit:
    """The folder of define lines and stand-in headers; without one, nothing stands in for anything."""

    def __init__(self, path):
        self.path = None if path is None else os.path.realpath(path)
        self.left = self._lines("left-out")
        self.left_of_commands = self._lines("left-out-of-commands")

    def _lines(self, name):
        if self.path is None:
            return []
        try:
            with open(os.path.join(self.path, name), encoding="utf-8") as file:
                return [line.strip() for line in file if line.strip() and not line.startswith("#")]
        except FileNotFoundError:
            return []

    @staticmethod
    def _is_one(name, patterns):
        return any(fnmatch.fnmatchcase(name, pattern) for pattern in patterns)

    def leaves_out(self, name):
        """Whether a macro of the compiler is left out."""
        return self._is_one(name, self.left)

    def leaves_out_of_commands(self, name):
        return self._is_one(name, self.left_of_commands)

    def words(self, library, standard, strict):
        """The settings for units of a C library and a standard, of a mode that keeps GNU's plain words or not."""
        names = ["words.cs", f"words-{standard}.cs"]
        if not strict:
            names.append("words-gnu.cs")
        if library is not None:
            names.append(f"words-{library}.cs")
        lines = [line.partition(" ")[2].strip() for name in names for line in self._lines(name)]
        calls = [name_of(head_and_body(line)[0]) for line in lines if line.startswith(BUILT_IN)]
        return lines + [f"cscout_has_{name} 1" for name in calls]

    def folders(self, library, standard, machine):
        """The folders of stand-in headers, which are searched before the system's."""
        names = [f"{library}-{standard}-{machine}", f"{library}-{standard}", f"{library}", f"headers-{standard}", "headers"]
        if self.path is None:
            return []
        return [folder for folder in (os.path.join(self.path, name) for name in names) if os.path.isdir(folder)]


class Unit:
    """A unit: its project, file, include paths of quoted names alone and of all, the files that come before its own, and what its
    settings come to, each macro's head by its name."""

    def __init__(self, project, path, quoted, folders, included, settings):
        self.project, self.path, self.settings = project, path, settings
        self.places = tuple(quoted), tuple(folders), tuple(included)

    def key(self):
        return self.project, self.path, self.places, tuple(sorted(self.settings.items()))


def name_of(head):
    return head.partition("(")[0]


def _folder(name):
    if name.strip(" \t\r") != name or name.endswith("\\") or "\n" in name:
        raise Odd(f"{name!r} is a directory that a workspace line cannot say")
    try:
        name.encode("utf-8")
    except UnicodeEncodeError:
        raise Odd(f"{name!r} is a directory that is not UTF-8") from None
    return name or "."


def folders_of(entry, answer, root, kept, system):
    """The include paths of quoted names alone, which `-iquote` names, and those of all: what `-I` names, then the folders `kept` of
    stand-ins, then the others of the compiler's list, its own behind the system's, and at last what `-idirafter` names beside the
    directories `system`, which it has anyway."""
    def named(folder):
        return _folder(root.folder(os.path.join(entry.directory, folder)))
    given = {named(word[2:]) for word in entry.options.asking if word.startswith("-I") and len(word) > 2}
    last = {named(folder) for folder in entry.options.after} - {named(folder) for folder in system}
    angle = [named(folder) for folder in answer.angle if folder not in answer.own]
    front = next((n for n, folder in enumerate(angle) if folder not in given), len(angle))
    back = max(front, max((n + 1 for n, folder in enumerate(angle) if folder not in last), default=0))
    own = [named(folder) for folder in answer.angle if folder in answer.own]
    order = [*angle[:front], *map(_folder, kept), *angle[front:back], *own, *angle[back:]]
    return list(dict.fromkeys(map(named, answer.quote))), list(dict.fromkeys(order))


def included_files(entry, answer, root, before):
    """The files `before`, then those of `-imacros` and those of `-include`, as the workspace names them: each of the command's is looked for
    in its folder, and then where a quoted name is."""
    folders = [entry.directory, *(os.path.join(entry.directory, folder) for folder in [*answer.quote, *answer.angle])]
    found = [_included(root.file(os.path.abspath(path))) for path in before]
    for option in "-imacros", "-include":
        for name in (value for kind, value in entry.options.included if kind == option):
            at = next((path for path in (os.path.join(folder, name) for folder in folders) if os.path.isfile(path)), None)
            if at is None:
                raise Odd(f"{option} {name} is a file that is not there")
            found.append(_included(root.file(at)))
    return found


def _included(path):
    if any(sign in path for sign in '"\n') or path != path.strip() or path.endswith("\\"):
        raise Odd(f"{path!r} is a path that an include line cannot say")
    return path


def gnu_folders(entry, answer, root):
    """The include paths of a unit of GNU C, as the compiler has them."""
    return [list(dict.fromkeys(_folder(root.folder(os.path.join(entry.directory, folder))) for folder in folders))
            for folders in (answer.quote, answer.angle)]


def gnu_settings(entry, answer, affirmed, added):
    """What the settings of a unit of GNU C come to: all macros of the compiler, the lines that answer what the unit asks, the
    command's own, and what the caller adds. A macro that the program would give, and the compiler has not, has no body."""
    result = {name: (name, None) for name in BY_COMMAND}
    result.update((name_of(head), own_parameters(head, body)) for head, body in answer.macros
                  if name_of(head) not in FIRST or name_of(head) in BY_COMMAND)
    for kind, text in [("define", text) for text in affirmed] + entry.options.settings + added:
        head, body = head_and_body(text)
        result.pop(name_of(head), None)
        if kind == "define":
            result[name_of(head)] = head, body
        elif name_of(head) in BY_COMMAND:
            result[name_of(head)] = head, None
    return result


def settings_of(entry, answer, kit, standard, added, dropped):
    """What the settings come to: the compiler's macros without what the kit leaves out, the kit's words, the command's
    own, and what the caller adds. Names of the command's that are left out come to `dropped`."""
    result = {}

    def take(kind, text):
        head, body = head_and_body(text)
        result.pop(name_of(head), None)
        if kind == "define":
            result[name_of(head)] = (head, body)
    for head, body in answer.macros:
        if not kit.leaves_out(name_of(head)):
            take("define", " ".join(own_parameters(head, body)))
    strict = any(head == "__STRICT_ANSI__" for head, _ in answer.macros)
    for text in kit.words(answer.library, standard, strict):
        take("define", text)
    for kind, text in entry.options.settings:
        name = name_of(head_and_body(text)[0])
        if kit.leaves_out_of_commands(name):
            dropped.append(name)
        else:
            take(kind, text)
    for kind, text in added:
        take(kind, text)
    return result


def looked_for(paths, workspace):
    """Refused where none of the units' files is in this folder."""
    if any(os.path.isfile(path) for path in paths):
        return
    there = os.path.dirname(os.path.abspath(workspace))
    found = any(os.path.isfile(os.path.join(there, path)) for path in paths)
    raise Refused(f"no file of {workspace} is here: run it in {there if found else 'the folder that its paths are relative to'}")


def _define(head, body):
    return _undefine(head) if body is None else f"define {head} {body}".rstrip(" \t")


def _undefine(head):
    """The line after which a setting is gone: a word by which a unit asks for headers is again what it was."""
    name = name_of(head)
    return f"define {name} {name}" if name in HEADERS_ASKED else f"undefine {name}"


class _Heading:
    """One `project` line with what stands below it: the include paths, the first includes, the settings that all share, and the
    units."""

    def __init__(self, project, places, units, standard):
        quoted, folders, included = places
        self.lines = [f"project {project}"]
        if standard != "c99":
            self.lines.append(f"standard {standard}")
        self.lines += [f"qpath {folder}" for folder in quoted] + [f"ipath {folder}" for folder in folders]
        self.lines += [f"include {path}" for path in included]
        first = units[0].settings
        self.shared = {name: macro for name, macro in first.items() if all(u.settings.get(name) == macro for u in units)}
        self.lines += [_define(*macro) for macro in self.shared.values()]
        self.start = list(self.lines)
        self.now, self.size = dict(self.shared), self._size(self.shared)

    @staticmethod
    def _size(settings):
        return sum(len(head) + len(body or "") + 10 for head, body in settings.values())

    def add(self, unit):
        """The lines that lead from the settings in force to the unit's, and its `file` line."""
        gone = [name for name in self.now if name not in unit.settings]
        new = {name: macro for name, macro in unit.settings.items() if self.now.get(name) != macro}
        cost = sum(2 * len(name) + 10 for name in gone) + self._size(new)
        if self.size + cost > MOST_SETTINGS:
            self.lines += self.start
            self.now, self.size = dict(self.shared), self._size(self.shared)
            gone, new = [], {name: macro for name, macro in unit.settings.items() if self.shared.get(name) != macro}
            cost = self._size(new)
        self.lines += [_undefine(self.now[name][0]) for name in gone]
        self.lines += [_define(*macro) for macro in new.values()]
        self.lines.append(f"file {unit.path}")
        self.now, self.size = dict(unit.settings), self.size + cost


def text_of(units, readonly, standard):
    """The units in the order of the workspace file, and its text: units of one project, one list of include paths and of first
    includes below one heading, those of one setting beside each other, all in the order in which each first came."""
    groups = {}
    for unit in units:
        groups.setdefault((unit.project, unit.places), {}).setdefault(unit.key()[3], []).append(unit)
    order = []
    lines = ["# made by scripts/import out of a recorded build"] + [f"readonly {prefix}" for prefix in readonly]
    ordered = {}
    for project, places in groups:
        ordered.setdefault(project, []).append(places)
    for project, lists in ordered.items():
        for places in lists:
            together = [unit for alike in groups[project, places].values() for unit in alike]
            heading = _Heading(project, places, together, standard)
            for unit in together:
                heading.add(unit)
            lines += heading.lines
            order += together
    return order, "\n".join(lines) + "\n"
