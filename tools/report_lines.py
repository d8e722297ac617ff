"""The lines of a script, played over the history of a report, as tools/check_report plays them.

A `Line` is a line with what the report has for it. `Turns` are the entries that somebody made, in order, and a `Player` takes for each line
the entries that its statement makes, at the places that are printed, and holds its reply and its marks against what they have to be.
"""
from report_history import Wrong, weight
from report_queries import Bad, answer, excluded, keeps, text

CHANGES, WEIGHT, TABLES, CURSORS, COLUMNS = 65536, 536870912, 64, 8, 16


class Refused(Exception):
    """The fields of the error that a line has to be answered with."""


class Line:
    """A line of the script, and what the report has for it."""

    def __init__(self, number, who, what, first):
        self.number, self.who, self.what, self.first = number, who, what, first
        self.at, self.marks, self.reply, self.marked, self.raced = None, [], [], 0, False

    def record(self):
        return self.at or self.reply[0]

    def wrong(self, what):
        self.record().wrong("line %d of the script: %s" % (self.number, what))

    def is_out_of_memory(self):
        return self.who is not None and self.reply[0].fields[1:4] == ["error", "99", "memory"]


class Turns:
    """The entries that somebody made, and which of them come next; nothing of it happened before the place `least`."""

    def __init__(self, store, places, least):
        self.store, self.places, self.next, self.least = store, places, 0, least

    def most(self):
        return self.places[self.next] if self.next < len(self.places) else len(self.store.entries)

    def reach(self, record, place):
        if not self.least <= place <= self.most():
            record.wrong("its place cannot be %d: it is from %d to %d" % (place, self.least, self.most()))
        self.least = place

    def take(self, who, why, *what):
        what = [str(part) for part in what]
        if self.next == len(self.places):
            self.store.entries[-1].record.wrong("behind the history misses an entry '%s' of number %d: %s" % (",".join(what), who, why))
        place = self.places[self.next]
        entry = self.store.entries[place]
        if (entry.who, entry.what) != (who, what):
            entry.record.wrong("the entry that has to come here is '%s' of number %d: %s" % (",".join(what), who, why))
        self.next, self.least = self.next + 1, place + 1
        return place

    def take_any(self, who):
        place = self.most()
        if self.next == len(self.places) or self.store.entries[place].who != who:
            self.store.entries[min(place, len(self.store.entries) - 1)].record.wrong("an entry of number %d misses" % who)
        self.next, self.least = self.next + 1, place + 1
        return self.store.entries[place]


class Player:
    """Plays lines over the history, each at the place that is printed for it."""

    def __init__(self, store):
        self.store, self.cursors, self.held = store, {}, []

    def play(self, line, turns):
        if not line.reply:
            raise Wrong(line.missing, "line %d of the script has no reply" % line.number)
        place, records = None, [["error", "01", "syntax", line.first]]
        if line.is_out_of_memory():
            place, records = None, [["error", "99", "memory", self.out_of_memory(line, turns)]]
        elif line.who is None:
            records = [["error"] + line.what]
        elif line.who == 0 and line.raced:
            pass
        elif isinstance(line.what, Bad):
            records = [["error", "01", "syntax", line.what.args[0]]]
        else:
            try:
                self.refuse_altered(line, turns)
                place, records = self.STATEMENTS[line.what[0]](self, line, turns)
            except Refused as refused:
                place, records = self.now(line, turns), [["error"] + list(refused.args)]
                if not line.marks:
                    turns.reach(line.record(), place)
        self.compare(line, place, records)

    def compare(self, line, place, records):
        if line.raced and place is None and line.at:
            line.wrong("it is settled at no place")
        if line.raced and place is not None and self.now(line, None) != place:
            line.wrong("it was answered at place %d" % place)
        if line.marked < len(line.marks):
            line.marks[line.marked].wrong("no extent more served line %d of the script" % line.number)
        for record, wanted in zip(line.reply, records):
            wanted = [str(line.number)] + [text(field) for field in wanted]
            if record.fields != wanted:
                record.wrong("line %d of the script has to be answered '%s'" % (line.number, ",".join(wanted)))
        if len(line.reply) != len(records):
            line.reply[-1].wrong("the reply to line %d of the script has %d records, and not %d" % (line.number, len(records), len(line.reply)))

    def now(self, line, turns):
        """The printed place of a line, or where the prelude is."""
        if not line.raced:
            return turns.least
        if line.at is None:
            line.wrong("the place at which it was answered misses")
        place = line.at.whole(2)
        if len(line.at.fields) != 3 or place > len(self.store.entries):
            line.at.wrong("there is no such place")
        return place

    def why(self, line):
        return "line %d of the script" % line.number

    def out_of_memory(self, line, turns):
        made = line.reply[0].whole(4)
        if made and turns is None:
            line.wrong("it makes no entry")
        entries = [turns.take_any(line.who) for _ in range(made)]
        if sum((entry.what[:2] == ["open", "0"]) - (entry.what[:2] == ["shut", "0"]) for entry in entries):
            turns.take(line.who, self.why(line), "shut", 0)
        if entries and entries[-1].what[0] == "build":
            turns.take(0, self.why(line), "cancel", entries[-1].what[1], 0)
        return made

    def refuse_altered(self, line, turns):
        """A line of a race is refused for a column that its table got behind the look, where its reply says so and it may be."""
        if not line.raced or line.reply[0].fields[1:4] != ["error", "22", "table-altered"] or line.what[0] not in self.SEEING:
            return
        now = self.now(line, turns)
        table = self.tables(now).get(line.what[1])
        added = [place for place in table.added if place < now] if table else []
        if not added or added[-1] < turns.least or self.store.entries[added[-1]].who == line.who:
            line.wrong("no column came behind its look")
        if not any(self.is_bound(line.what, place) for place in [turns.least] + added if turns.least <= place):
            line.wrong("it is refused for its names at each look that it may have had")
        raise Refused("22", "table-altered", table.number, added[-1])

    def is_bound(self, what, place):
        try:
            return bool(self.bound(what, place))
        except Refused:
            return False

    # ---- names and kinds

    def tables(self, place):
        return {table.name: table for table in self.store.tables if table.place < place}

    def bound(self, what, place):
        """The table of a statement, or the first fault of its names and values in the order of the text."""
        if what[1] not in self.tables(place):
            raise Refused("03", "unknown-table", what[1])
        table = self.tables(place)[what[1]]
        columns, uses = dict(table.columns_at(place)), what[-1]
        self.names(uses, columns)
        if what[0] == "INSERT":
            order = what[2] or list(columns)
            for row in what[3]:
                if len(row) != len(order):
                    raise Refused("05", "wrong-count", len(row), len(order))
            uses = [("fit", column, value, True) for row in what[3] for column, value in zip(order, row)]
        for use in uses:
            self.kind(use, columns)
        if what[0] in ("SELECT", "EXPLAIN", "OPEN"):
            self.grouped(*what[2:6])
        return table

    def names(self, uses, columns):
        seen = set()
        for use in uses:
            if use[0] == "column" and use[1] not in columns:
                raise Refused("03", "unknown-column", use[1])
            if use[0] == "column" and use[2]:
                if use[1] in seen:
                    raise Refused("03", "repeated-column", use[1])
                seen.add(use[1])

    def kind(self, use, columns):
        size = columns[use[1]]
        if use[0] == "sum" and size or use[0] == "fit" and use[2] is not None and isinstance(use[2], int) == (size > 0):
            raise Refused("04", "wrong-kind", use[1])
        if use[0] == "fit" and use[3] and isinstance(use[2], str) and len(use[2]) > size:
            raise Refused("06", "too-long", use[1], len(use[2]), size)

    def grouped(self, items, condition, groups, keys):
        asked = (items or [("", "*")]) + [item for item, _ in keys]
        if groups is not None or any(function for function, _ in asked):
            for function, column in asked:
                if not function and column not in (groups or []):
                    raise Refused("09", "not-grouped", column)

    # ---- statements of a session

    def refuse_write(self, line, place, changes, view=None):
        begun, mode, _, count, _ = self.store.at(line.who, place)
        if mode == "readonly":
            raise Refused("14", "read-only")
        for number, rid, _ in changes if view else ():
            for who, since, until in self.store.tables[number - 1].holders.get(rid, ()):
                if who != line.who and since < place and (until is None or until >= place):
                    raise Refused("15", "row-locked", rid, who)
        for number, rid, _ in changes if view else ():
            last = self.store.tables[number - 1].last_touch(rid, self.store.scn[place])
            if last > view.scn:
                raise Refused("16", "cannot-serialize", rid, last)
        if len(changes) > CHANGES - count:
            raise Refused("17", "too-many-changes", len(changes), CHANGES - count)
        weighs = sum(weight(row) for _, _, row in changes)
        if weighs > WEIGHT - self.store.weight[place]:
            raise Refused("18", "store-full", weighs, WEIGHT - self.store.weight[place])

    def write(self, line, turns, changes):
        place = turns.take(line.who, self.why(line), "write", len(changes))
        entry = self.store.entries[place]
        for at, (there, wanted) in enumerate(zip(entry.changes, changes)):
            if there != wanted:
                raise Wrong(entry.record.number + 1 + at, "the change has to be '%s': line %d of the script" % (change_text(place, wanted), line.number))
        return place

    def insert(self, line, turns):
        now, what = self.now(line, turns), line.what
        table = self.bound(what, now)
        names, first = [name for name, _ in table.columns_at(now)], self.store.given(table, now)
        order = what[2] or names
        rows = [tuple(dict(zip(order, row)).get(name, default) for name, default in zip(names, table.defaults)) for row in what[3]]
        changes = [(table.number, first + at, row) for at, row in enumerate(rows)]
        self.refuse_write(line, now, changes)
        return self.write(line, turns, changes), [["inserted", len(rows), first]]

    def rewrite(self, line, turns):
        now, (word, _, settings, condition, _) = self.now(line, turns), line.what
        table = self.bound(line.what, now)
        if self.store.at(line.who, turns.least)[1] == "readonly":
            raise Refused("14", "read-only")
        place = turns.take(line.who, self.why(line), "open", 0, table.number)
        view = self.store.views[place]
        for e in range(view.extents):
            self.serve(line, turns, view, condition, e)
        names = [name for name, _ in view.columns]
        changed = [(rid, dict(row, **settings) if settings else None) for rid, row in view.rows() if keeps(condition, row)]
        changes = [(table.number, rid, row and tuple(row[name] for name in names)) for rid, row in changed]
        if changes:
            try:
                now = self.now(line, turns)
                self.refuse_write(line, now, changes, view)
                place = self.write(line, turns, changes)
            except Refused as refused:
                turns.reach(line.record(), now)
                turns.take(line.who, self.why(line), "shut", 0)
                return now, [["error"] + list(refused.args)]
        turns.take(line.who, self.why(line), "shut", 0)
        return place, [["updated" if word == "UPDATE" else "deleted", len(changes)]]

    def serve(self, line, turns, view, condition, e):
        """How an extent is served at the place of its mark, which has to say so."""
        place, mark = turns.least, None
        if line.raced:
            if line.marked == len(line.marks):
                line.wrong("the mark of its extent %d misses" % e)
            mark = line.marks[line.marked]
            line.marked += 1
            place = mark.whole(2)
            turns.reach(mark, place)
        unit = self.store.unit(view.table.number, e, place)
        how = ["blocks"]
        if unit is not None and unit.scn <= view.scn:
            how = ["pruned" if excluded(condition, unit.bounds) else "unit", unit.scn, view.table.stale(e, unit.scn, view.scn)]
        wanted = [str(part) for part in ["mark", line.number, place, e] + how]
        if mark and mark.fields != wanted:
            mark.wrong("the extent was served by '%s'" % ",".join(wanted))
        return [e] + how

    def answered(self, what, view):
        rows = answer(what, view.columns, [row for _, row in view.rows()])
        return [["answer", view.scn, len(rows)]] + [["row"] + row for row in rows]

    def query(self, line, turns):
        now, what, who = self.now(line, turns), line.what, line.who
        scn, cursor = what[6], what[7] if what[0] == "OPEN" else 0
        table = self.bound(what, now)
        if cursor and (who, cursor) in self.cursors:
            raise Refused("11", "cursor-open", cursor)
        if cursor and sum(1 for other, _ in self.cursors if other == who) >= CURSORS:
            raise Refused("12", "too-many-cursors", CURSORS)
        self.refuse_scn(scn, now)
        place = turns.take(who, self.why(line), "open", cursor, table.number, *([] if scn is None else [scn]))
        view = self.store.views[place]
        if cursor:
            self.cursors[(who, cursor)] = (view, what)
            return place, [["opened", cursor, view.scn, view.extents]]
        hows = [self.serve(line, turns, view, what[3], e) for e in range(view.extents)]
        turns.take(who, self.why(line), "shut", 0)
        if what[0] == "EXPLAIN":
            return place, [["plan", view.scn, view.extents]] + [["served"] + how for how in hows]
        return place, self.answered(what, view)

    def refuse_scn(self, scn, place):
        """Refuses the SCN that a query names, where it was not reached, or lies below the horizon."""
        if scn is not None and scn > self.store.scn[place]:
            raise Refused("23", "no-such-scn", scn, self.store.scn[place])
        if scn is not None and scn < self.store.horizon[place]:
            raise Refused("20", "snapshot-too-old", scn, self.store.horizon[place])

    def cursor(self, line, turns):
        key = (line.who, line.what[1])
        if key not in self.cursors:
            raise Refused("10", "cursor-unknown", key[1])
        view, what = self.cursors[key]
        if line.what[0] == "STEP" and view.served < view.extents:
            how = self.serve(line, turns, view, what[3], view.served)
            view.served += 1
            return turns.least, [["served"] + how]
        now = self.now(line, turns)
        if line.what[0] != "CLOSE":
            turns.reach(line.record(), now)
        if line.what[0] == "STEP":
            return now, [["end", key[1]]]
        for e in range(view.served, view.extents) if line.what[0] == "FETCH" else ():
            self.serve(line, turns, view, what[3], e)
        place = turns.take(line.who, self.why(line), "shut", key[1])
        del self.cursors[key]
        return (place, [["closed", key[1]]]) if line.what[0] == "CLOSE" else (now, self.answered(what, view))

    def define(self, line, turns):
        if self.store.at(line.who, turns.least)[0] is not None:
            turns.take(line.who, self.why(line), "commit")
        now, what = self.now(line, turns), line.what
        if what[0] == "ALTER" and what[2] == "add":
            return self.add_column(line, turns, now)
        if what[0] == "ALTER":
            table = self.bound(what, now)
            return turns.take(line.who, self.why(line), "memory", table.number, what[2]), [["altered", table.number]]
        _, name, columns, block, extent, memory, uses = what
        self.names(uses, dict(columns))
        if name in self.tables(now):
            raise Refused("07", "table-exists", name)
        if len(self.tables(now)) >= TABLES:
            raise Refused("08", "too-many-tables", TABLES)
        shape = [part for column in columns for part in column]
        place = turns.take(line.who, self.why(line), "create", name, block, extent, *shape)
        number = len(self.tables(place)) + 1
        if memory:
            turns.take(line.who, self.why(line), "memory", number, memory)
        return place, [["created", number, self.store.scn[place + 1]]]

    def add_column(self, line, turns, now):
        _, name, _, (column, size), default, _ = line.what
        if name not in self.tables(now):
            raise Refused("03", "unknown-table", name)
        table = self.tables(now)[name]
        if column in dict(table.columns_at(now)):
            raise Refused("03", "repeated-column", column)
        self.kind(("fit", column, default, True), {column: size})
        if len(table.columns_at(now)) >= COLUMNS:
            raise Refused("21", "too-many-columns", COLUMNS)
        place = turns.take(line.who, self.why(line), "add", table.number, column, size, text(default))
        return place, [["altered", table.number]]

    def transaction(self, line, turns):
        begun, word = self.store.at(line.who, turns.least)[0], line.what[0]
        if word == "COMMIT":
            place = turns.take(line.who, self.why(line), "commit")
            return place, [["committed", self.store.scn[place + 1]]]
        if word == "ROLLBACK" and begun is None:
            turns.reach(line.record(), self.now(line, turns))
            return turns.least, [["rolled-back"]]
        if word == "ROLLBACK":
            return turns.take(line.who, self.why(line), "rollback"), [["rolled-back"]]
        if begun is not None:
            raise Refused("13", "transaction-open", begun)
        place = turns.take(line.who, self.why(line), "begin", line.what[1])
        return place, [["begun", self.store.scn[place]]]

    # ---- statements of the background, in a prelude

    def begin(self, line, turns):
        task = self.store.next[turns.least]
        if task is None:
            return [["idle"]]
        number = len([entry for entry in self.store.entries[: turns.least] if entry.what[0] == "build"]) + 1
        place = turns.take(0, self.why(line), "build", number, *task)
        self.held.append(number)
        return [["build", number, task[0], task[1], self.store.scn[place], task[2]]]

    def switch(self, line, turns):
        if not self.held:
            return [["none"]]
        number = self.held.pop(0)
        build, used = self.store.builds[number - 1], self.store.used[turns.least]
        if build.killed is not None and build.killed < turns.least:
            turns.take(0, self.why(line), "cancel", number, 0)
            return [["cancelled", number, build.killed]]
        if used + build.bytes > self.store.area:
            turns.take(0, self.why(line), "cancel", number, 1)
            return [["full", number, build.bytes, self.store.area - used]]
        place = turns.take(0, self.why(line), "switch", number)
        return [["switch", number, build.bytes, self.store.used[place + 1]]]

    def background(self, line, turns):
        word, records = line.what[0], []
        if word == "RUN":
            others, self.held = self.held, []
            while self.store.next[turns.least] is not None:
                records += self.begin(line, turns) + self.switch(line, turns)
            self.held = others
            return None, records + [["idle"]]
        if word == "BEGIN":
            return None, self.begin(line, turns)
        if word == "SWITCH":
            return None, self.switch(line, turns)
        if word == "CANCEL":
            if not self.held:
                return None, [["none"]]
            number = self.held.pop(0)
            turns.take(0, self.why(line), "cancel", number, 0)
            return None, [["dropped", number]]
        if word == "TRICKLE":
            place = turns.take(0, self.why(line), "trickle", line.what[1])
            return None, [["trickle", self.credits(place + 1)]]
        if word == "PURGE":
            place = turns.take(0, self.why(line), "purge")
            return None, [["purged", self.store.horizon[place + 1], self.store.kept(place + 1)]]
        _, name, e, _ = line.what
        if name not in self.tables(turns.least):
            raise Refused("03", "unknown-table", name)
        number = self.tables(turns.least)[name].number
        if self.store.unit(number, e, turns.least) is None:
            raise Refused("19", "no-unit", number, e)
        place = turns.take(0, self.why(line), "evict", number, e)
        return None, [["evicted", number, e, self.store.used[place + 1]]]

    def credits(self, place):
        whats = [entry.what for entry in self.store.entries[:place]]
        return sum(int(what[1]) for what in whats if what[0] == "trickle") - sum(int(what[4]) for what in whats if what[0] == "build")

    SEEING = {"INSERT", "UPDATE", "DELETE", "SELECT", "EXPLAIN", "OPEN"}
    STATEMENTS = {"CREATE": define, "ALTER": define, "INSERT": insert, "UPDATE": rewrite, "DELETE": rewrite, "SELECT": query, "EXPLAIN": query,
                  "OPEN": query, "STEP": cursor, "FETCH": cursor, "CLOSE": cursor, "SET": transaction, "COMMIT": transaction,
                  "ROLLBACK": transaction, "RUN": background, "BEGIN": background, "SWITCH": background, "CANCEL": background,
                  "TRICKLE": background, "EVICT": background, "PURGE": background}


def change_text(place, change):
    number, rid, row = change
    return ",".join(["c", str(place), str(number), str(rid)] + (["out"] if row is None else ["put"] + [text(value) for value in row]))
