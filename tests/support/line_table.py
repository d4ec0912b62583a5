"""What is asked of a line table."""


class LineTable:
    """Questions of a line table, each with its answer. word: what names the table in a player's commands."""

    def __init__(self, word):
        self.word = word

    def asks(self, question, *wanted):
        return "%s %s" % (self.word, question), " ".join(map(str, wanted))

    def line_of(self, address, wanted):
        return self.asks("line_of %d" % address, wanted)

    def address_of(self, line, wanted):
        return self.asks("address_of %d" % line, wanted)

    def bind(self, line, *wanted):
        return self.asks("bind %d" % line, *wanted)

    def label_at(self, address, *wanted):
        return self.asks("label_at %d" % address, *wanted)

    def label_address(self, name, wanted):
        return self.asks("label_address %s" % name, wanted)

    def label(self, place, *wanted):
        return self.asks("label %d" % place, *wanted)

    def label_count(self, wanted):
        return self.asks("label_count", wanted)
