"""What the tables leave out, and why."""


class Account:
    """Counts and names what is left out, reason by reason, so that nothing goes in silence."""

    def __init__(self):
        self.names_by_reason = {}
        self.told = {}

    def note(self, reason, name):
        """Says that what has this name is left out, or held otherwise than CLDR has it, and why."""
        self.names_by_reason.setdefault(reason, {})[name] = None

    def tell(self, fact, name):
        """Says what is true of what has this name, which is held as CLDR has it."""
        self.told.setdefault(fact, {})[name] = None

    def lines(self):
        """A line for each reason and fact: how many there are, and their names."""
        named = self.names_by_reason | self.told
        return [f"{reason} ({len(names)}): {', '.join(names)}" for reason, names in named.items()]

    def summary(self, name):
        """One line, which the tool of a name says in place of those; none where nothing is left out."""
        if self.names_by_reason:
            count = sum(map(len, self.names_by_reason.values()))
            yield f"{name}: {count} things of CLDR are left out or held otherwise; --account names them"
