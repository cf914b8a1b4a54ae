"""What a choice is by the definitions alone, worked out anew from its events and their sources as jslit-why --json tells them: a part of
check-why. Nothing of its relations, its refusal or its memory-order is taken from the program. Events stand in the order of their
numbers. Slow, and for few events."""


class Choice:
    def __init__(self, execution):
        self.events = execution["events"]
        self.count = range(len(self.events))
        number = {event["name"]: place for place, event in enumerate(self.events)}
        self.sources = [(number[each["read"]], each["byte"], number[each["source"]]) for each in execution["from"]]
        self.pairs = sorted({(source, read) for read, _, source in self.sources})
        self.synchronizes = {(w, r) for w, r in self.pairs if self.is_atomic(w) and self.is_atomic(r) and self.has_range_of(w, r)}
        self.before = self.closed({(e, d) for e in self.count for d in self.count
                                   if self.is_ordered(e, d) or self.is_made_before(e, d)} | self.synchronizes)

    def is_atomic(self, e):
        return self.events[e]["order"] == "seq-cst"

    def does_write(self, e):
        return self.events[e]["kind"] != "read"

    def bytes_of(self, e):
        return range(self.events[e]["first"], self.events[e]["first"] + self.events[e]["size"])

    def has_range_of(self, e, d):
        return self.bytes_of(e) == self.bytes_of(d)

    def is_ordered(self, e, d):
        """agent-order: the events that make the block are of one owner."""
        owner, place = zip(*(("", int(name[5:-1])) if name.startswith("init[") else (name.rpartition(".")[0], int(name.rpartition(".")[2]))
                             for name in (self.events[e]["name"], self.events[d]["name"])))
        return owner[0] == owner[1] and place[0] < place[1]

    def is_made_before(self, e, d):
        return e != d and self.events[e]["order"] == "init" and bool(set(self.bytes_of(e)) & set(self.bytes_of(d)))

    def closed(self, pairs):
        for m in self.count:
            pairs |= {(e, d) for e, n in pairs if n == m for o, d in pairs if o == m}
        return pairs

    def is_whole(self, w, r):
        return self.events[r]["no_tear"] and self.events[w]["no_tear"] and self.has_range_of(w, r)

    def forbidden(self):
        """What may not stand after a source and before its read."""
        b = self.before
        return {(w, r, v) for w, r in self.pairs for v in self.count if v not in (w, r) and self.does_write(v) and self.is_atomic(v)
                and ((w, r) in self.synchronizes and self.has_range_of(v, r)
                     or (w, r) in b and (v, r) in b and self.is_atomic(w) and self.has_range_of(w, v)
                     or (w, r) in b and (w, v) in b and self.is_atomic(r) and self.has_range_of(v, r))}

    def has_order(self):
        """Whether some list of all events keeps happens-before and has no such event between: begun in all ways, event by event."""
        triples, seen = self.forbidden(), set()

        def goes_on(placed):
            if len(placed) == len(self.count):
                return True
            if placed in seen:
                return False
            seen.add(placed)
            return any(goes_on(placed | {v}) for v in self.count if v not in placed
                       and all(e in placed for e, d in self.before if d == v)
                       and not any(w in placed and r not in placed for w, r, other in triples if other == v))

        return goes_on(frozenset())

    def refused_by(self):
        """The clause that the choice breaks first, or None. Guards aren't looked at."""
        if any((e, e) in self.before for e in self.count):
            return "happens-before"
        if any((r, w) in self.before or any(self.does_write(v) and byte in self.bytes_of(v) and {(w, v), (v, r)} <= self.before
                                            for v in self.count) for r, byte, w in self.sources):
            return "coherent-reads"
        if any(r == q and w != v and self.is_whole(w, r) and self.is_whole(v, r) for w, r in self.pairs for v, q in self.pairs):
            return "tear-free-reads"
        return None if self.has_order() else "memory-order"
