"""A machine of one's own: the file that says how it starts (docs/machine/profile.md), and the lines of its states, by
the model of tools/vectors/v8_model.py."""
from v8_board import Bus, States
from v8_model import Cpu


def number_of(name):
    """The number of a register by its name."""
    name = {"%sp": "%o6", "%fp": "%i6"}.get(name, name)
    return "goli".index(name[1]) * 8 + int(name[2])


class Start:
    """A file of words in RAM and a start state."""

    def __init__(self, text):
        self.words, self.registers, self.window = {}, {}, 0
        self.state = {"pc": 0, "npc": 4, "psr": 0x80, "wim": 0, "tbr": 0, "y": 0, "context_table": 0, "context": 0}
        for line in text.splitlines():
            name, *values = line.partition("!")[0].split() or [""]
            if name:
                self.take(name, [int(it, 0) for it in values])

    def take(self, name, values):
        if name.lstrip("%") in self.state:
            self.state[name.lstrip("%")] = values[0]
        elif name == "window":
            self.window = values[0]
        elif name[0] == "%":
            self.registers[self.window, number_of(name)] = values[0]
        else:
            self.words.update((int(name, 0) + 4 * it, word) for it, word in enumerate(values))

    def tables(self):
        """The places of the words of tables, from the context's on."""
        found, left = set(), [self.state["context_table"] + 4 * self.state["context"]]
        while left:
            place = left.pop()
            if place in self.words and place not in found:
                found.add(place)
                if self.words[place] & 3 == 1:
                    left += [(self.words[place] >> 2) * 64 + 4 * it for it in range(256)]
        return found

    def cpu(self, windows):
        """A processor of so many windows in this state."""
        cpu, state = Cpu(windows), self.state
        for (window, number), word in self.registers.items():
            cpu.cwp = window
            cpu.set_reg(number, word)
        cpu.set_psr(state["psr"])
        cpu.wim, cpu.y, cpu.pc, cpu.npc = state["wim"] % (1 << windows), state["y"], state["pc"], state["npc"]
        cpu.base, cpu.tt = state["tbr"] >> 12 << 12, state["tbr"] >> 4 & 0xFF
        return cpu

    def lines(self, windows, limit):
        """The lines of its states, and then those of the words of RAM that it changed."""
        bus = Bus(self.words, self.state["context_table"], self.state["context"], b"")
        yield from States(self.cpu(windows), bus).lines(limit)
        for place, word in sorted(bus.words.items()):
            if word != self.words.get(place, 0):
                yield f"0x{place:08X} 0x{word:08X}"
