"""A second reading of the steps of a binder, which binds with the libraries that existed when it was begun."""

from binder import Binder


class Flight:
    """A binder of a program at a base, with libraries, which are pairs (name, bytes), and names of preloads."""

    def __init__(self, program, base, libraries, preloads):
        self.program, self.base, self.libraries, self.preloads, self.goings = program, base, list(libraries), list(preloads), 0

    def steps(self):
        """Returns the number of steps before the last one: one for the program's own tests, and one for each library
        that is read. A program that is refused by itself has none."""
        refusal, _ = Binder().bind(self.program, self.base, self.libraries, self.preloads)
        if refusal and refusal[:3] in ('B1 ', 'B2 '):
            return 0
        return len(Binder().load_order(self.program, self.libraries, self.preloads))

    def step(self):
        """Returns the printed text, and whether this was the last step."""
        if self.goings < self.steps():
            self.goings += 1
            return 'going\n', False
        return Binder().text(self.program, self.base, self.libraries, self.preloads), True
