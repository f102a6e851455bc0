"""Labels as values, `goto *table[i]`: a label's address becomes its number, which each such goto looks up."""
import re

SECTION = re.compile(r"\s*\.(?:section\s+(\S+)|(text|data|bss)\b)")
LABEL = re.compile(r"(\.L\w+):")
# (a compiler may put a function's rare parts elsewhere)
FUNCTION = re.compile(r"([A-Za-z_$][\w.$]*?)(?:\.cold)?:")
PLACE = re.compile(r"\s*\.loc\s")
# A jump to where a register says, which a return isn't.
JUMP = re.compile(r"(\s*)jmp\s+(%[gli]\d|%o[0-6])\s*$")
JUMPS = re.compile(r"^\s*jmp\s+(?:%[gli]\d|%o[0-6])(?:\+%\w\d)?\s*$", re.M)
# A word of data that is a label, and the distance of two.
WORD = re.compile(r"(\s*\.(?:long|word|uaword|4byte)\s+)(\.L\w+)\s*$")
DISTANCE = re.compile(r"\s*\.\w+\s+(\.L\w+)\s*-\s*\(?(\.L\w+)\)?\s*$")
HALF = re.compile(r"(?<=%hi\(|%lo\()\.L\w+(?=\))")
# The greatest number that is compared with a register.
MOST = 4095
# Where a value is no label's, the run ends as by abort.
WRONG = ["\tsethi %hi(393216), %o0", "\tta 0"]


class Labels:
    """The labels in the code of an assembly, by the functions that they stand in, and those whose addresses are
    taken."""

    def __init__(self, lines):
        self.lines, self.owners, self.sections = lines, {}, []
        section, function = "", None
        for line in lines:
            found = SECTION.match(line)
            if found:
                section = (found[1] or found[2]).strip('"').partition('"')[0].lstrip(".")
            self.sections.append(section.partition(",")[0])
            label = LABEL.match(line)
            if label and section.startswith("text"):
                self.owners[label[1]] = function
            elif FUNCTION.match(line):
                function = FUNCTION.match(line)[1]
        self.numbers = {}
        for line, section in zip(lines, self.sections):
            word = self.word(line, section)
            for name in [word[2]] if word else HALF.findall(line):
                if name in self.owners:
                    self.numbers.setdefault(name, len(self.numbers) + 1)

    @staticmethod
    def word(line, section):
        """A word of data that is a label; None of another line, and of what debuggers read."""
        return None if section.startswith("debug") else WORD.match(line)

    def replaced(self, line, section):
        """A line with numbers in the place of labels' addresses."""
        word = self.word(line, section)
        if word and word[2] in self.numbers:
            return f"{word[1]}{self.numbers[word[2]]}"
        return HALF.sub(lambda it: str(self.numbers.get(it[0], it[0])), line)

    def distant(self):
        """The number of the line of the first label of which data has a distance from another one; None where there is
        none."""
        for line, section in zip(self.lines, self.sections):
            found = None if section.startswith("debug") else DISTANCE.match(line)
            if found and all(it in self.owners for it in found.groups()):
                return self.lines.index(f"{found[1]}:") + 1
        return None

    def of(self, function):
        """The numbers and the labels of a function, in the order of the numbers."""
        return sorted((number, it) for it, number in self.numbers.items() if self.owners[it] == function)


def looked_up(register, labels, name):
    """The words that go to the label whose number a register has, by halves."""
    if not labels:
        return [f"\tb\t{name}", "\tnop"]
    half = len(labels) // 2
    number, label = labels[half]
    lines = [f"\tcmp\t{register}, {number}", f"\tbe\t{label}", "\tnop"]
    if half + 1 < len(labels):
        lines += [f"\tbgu\t{name}_{number}", "\tnop"]
    lines += looked_up(register, labels[:half], name)
    if half + 1 < len(labels):
        lines += [f"{name}_{number}:", *looked_up(register, labels[half + 1:], name)]
    return lines


def distant_label(text):
    """The number of the line of a label that a program uses in a distance; None where there is none."""
    return Labels(text.splitlines()).distant() if JUMPS.search(text) else None


def with_labels_looked_up(text):
    """An assembly in which no jump goes to where a register says: the jumps of a function by one register go to one
    place, where the label is looked up by its number."""
    if not JUMPS.search(text):
        return text
    labels = Labels(text.splitlines())
    if not 0 < len(labels.numbers) <= MOST:
        return text
    kept, function, places, loc = [], None, {}, ""
    for line, section in zip(labels.lines, labels.sections):
        jump, head = JUMP.match(line), FUNCTION.match(line)
        loc = line if PLACE.match(line) else loc
        if head:
            function, places = head[1], {}
        if jump:
            place, _ = places.setdefault(jump[2], (f".Lgoto{len(kept)}", loc))
            line = f"{jump[1]}b\t{place}"
        elif line.lstrip().startswith(f".size\t{function},"):
            for register, (place, line_of_c) in places.items():
                wrong = f"{place}wrong"
                kept += [f"{place}:", line_of_c, *looked_up(register, labels.of(function), wrong), f"{wrong}:", *WRONG]
            places = {}
        kept.append(labels.replaced(line, section))
    return "\n".join(kept) + "\n"
