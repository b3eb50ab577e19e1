"""Reads and writes the record of refused mutants, `crates/NAME/refused.txt`.

Its first line identifies the kit. Each further line has a mutant, its key (mutant_keys.py) and the goals that
refused it with their function, sorted by the mutants' names. Only mutants.py writes it. The key is also one of the
goals, so a line that is edited is not current.
"""


def kit_of(folder):
    """Returns what identifies the kit in the record of the crate in a folder."""
    return (folder / "refused.txt").read_text(encoding="utf-8").partition("\n")[0].partition(" ")[2]


class Record:
    """The record of a crate: the key of each mutant that was refused, and the goals that were open."""

    def __init__(self, folder, kit):
        self.file, self.kit, self.lines = folder / "refused.txt", kit, {}
        text = self.file.read_text(encoding="utf-8") if self.file.is_file() else ""
        for line in text.splitlines()[1:]:
            name, key, goals = (*line.split(" ", 2), "", "")[:3]
            self.lines[name] = key, goals

    def goals(self, name):
        """Returns the goals that refused a mutant, as its line has them, or None without a line."""
        return self.lines.get(name, ("", None))[1]

    def is_current(self, name, key):
        """Returns whether a mutant with this key was refused."""
        return name in self.lines and self.lines[name][0] == key

    def put(self, name, key, goals):
        """Adds or replaces the line of a mutant."""
        self.lines[name] = key, goals
        self.write()

    def keep_only(self, names):
        """Drops the lines of other mutants."""
        self.lines = {name: line for name, line in self.lines.items() if name in names}
        self.write()

    def text(self):
        """Returns the text that the file has, if it has these lines."""
        lines = [f"{name} {key} {goals}\n" for name, (key, goals) in sorted(self.lines.items())]
        return f"kit {self.kit}\n{''.join(lines)}"

    def write(self):
        """Writes the file, in one step."""
        new = self.file.with_suffix(".new")
        new.write_text(self.text(), encoding="utf-8")
        new.replace(self.file)
