"""The history of a report, replayed: docs/definitions.md in plain Python, as tools/check_report reads it.

A `Store` takes the entries one by one, each of which has to be one that may come there, and keeps by places what they tell: the SCN, the
horizon, the rows of each commit, who had a change to a row pending, what each number had going on, the units, what is used, and the build
that comes next.
"""
import bisect
import re

PRIORITIES = ("critical", "high", "medium", "low", "none")


class Wrong(Exception):
    """With which line of the report something is wrong, and what."""


class Record:
    """A line of the report."""

    def __init__(self, number, line):
        self.number, self.line, self.fields = number, line, []
        for quoted, plain, end in re.findall(r'(?:"((?:[^"]|"")*)"|([^",\r]*))(,|$)', line):
            self.fields.append(quoted.replace('""', '"') or plain)
            if end == "":
                break
        if ",".join('"%s"' % f.replace('"', '""') if re.search('[,"\r]', f) else f for f in self.fields) != line:
            self.wrong("it is no record as docs/replies.md has them")

    def wrong(self, what):
        raise Wrong(self.number, what)

    def whole(self, at, least=0):
        """The field at this place as a number, which has to be there, plain and at least so many."""
        field = self.fields[at] if at < len(self.fields) else ""
        if not re.fullmatch("0|[1-9][0-9]{0,18}", field) or int(field) < least:
            self.wrong("its field %d is no number that can stand there" % (at + 1))
        return int(field)


# ---- the store, as the history replays it


class Table:
    def __init__(self, number, name, block, extent, columns, place):
        self.number, self.name, self.columns, self.place = number, name, columns, place
        self.defaults, self.added = [None] * len(columns), []  # at which places the last of the columns were added
        self.block, self.extent_rows, self.priority, self.opened = block, block * extent, None, False
        self.given = [(0, 0)]  # from which place on so many row numbers are given
        self.versions = {}  # of a row number: the SCNs of the commits that touched it, and the rows that they left
        self.holders = {}  # of a row number: who had a change pending, from which place, to which

    def columns_at(self, place):
        return self.columns[: len(self.columns) - sum(1 for added in self.added if added >= place)]

    def row_at(self, rid, scn):
        scns, rows = self.versions.get(rid, ((), ()))
        at = bisect.bisect_right(scns, scn)
        return rows[at - 1] if at else None

    def kept(self, horizon, scn):
        """How many versions a purge keeps: of each row number those behind the horizon, and the row there."""
        behind = sum(1 for scns, _ in self.versions.values() for one in scns if horizon < one <= scn)
        return behind + sum(1 for rid in self.versions if self.row_at(rid, horizon) is not None)

    def last_touch(self, rid, scn):
        scns = self.versions.get(rid, ((), ()))[0]
        at = bisect.bisect_right(scns, scn)
        return scns[at - 1] if at else 0

    def extent(self, e):
        return range(e * self.extent_rows, (e + 1) * self.extent_rows)

    def stale(self, e, unit, scn):
        return sum(1 for rid in self.extent(e) if rid in self.versions and self.last_touch(rid, scn) > unit)


class View:
    """What a cursor sees, fixed where it was opened."""

    def __init__(self, table, scn, given, own):
        self.table, self.scn, self.own, self.given, self.served = table, scn, own, given, 0
        self.columns, self.defaults = list(table.columns), list(table.defaults)
        self.extents = -(-given // table.extent_rows)

    def rows(self):
        for rid in range(self.given):
            row = self.own[rid] if rid in self.own else self.table.row_at(rid, self.scn)
            if row is not None:
                yield rid, dict(zip([name for name, _ in self.columns], widened(row, self.defaults)))


class Build:
    """A build, and the unit that it makes: the rows of an extent that were committed where it began."""

    def __init__(self, table, e, scn, who):
        self.table, self.e, self.scn, self.who, self.killed, self.ended, self.stale = table, e, scn, who, None, False, set()
        rows = [widened(row, table.defaults) for row in (table.row_at(rid, scn) for rid in table.extent(e)) if row is not None]
        columns = {name: [row[at] for row in rows] for at, (name, _) in enumerate(table.columns)}
        self.count = len(rows)
        self.bytes = 8 * -(-table.extent_rows // 64) + sum(column_bytes(values) for values in columns.values())
        self.bounds = {name: bounds_of(values) for name, values in columns.items()}


def widened(row, defaults):
    """A row with the defaults of the columns that its table got since."""
    return row + tuple(defaults[len(row) :])


def bounds_of(values):
    there = [value for value in values if value is not None]
    return min(there, default=None), max(there, default=None), len(values) - len(there), len(values)


def value_bytes(value):
    return 1 if value is None else 9 if isinstance(value, int) else 3 + len(value)


def column_bytes(values):
    """What a column counts for in the form of the least bytes, by docs/storage.md."""
    distinct = set(values) - {None}
    width = len(distinct).bit_length()
    words = -(-len(values) // (64 // width)) if width else 0
    runs = sum(1 for at, value in enumerate(values) if at == 0 or value != values[at - 1])
    kept = sum(map(value_bytes, distinct))
    return min(sum(map(value_bytes, values)), kept + 8 * words, kept + 8 * runs)


class Session:
    """What a number has going on: a transaction, from which place, in which mode, at which SCN; its pending changes; its cursors."""

    def __init__(self):
        self.begun, self.mode, self.scn, self.pending, self.cursors, self.left = None, "committed", 0, [], {}, False


class Entry:
    def __init__(self, record):
        self.record, self.who, self.what, self.changes = record, record.whole(2), record.fields[3:], []


class Store:
    """The history, replayed: what it tells at each place is kept by that place."""

    def __init__(self, area):
        self.area, self.entries, self.tables, self.builds, self.sessions = area, [], [], [], {}
        self.units, self.living, self.waiting, self.credits = {}, {}, set(), 0
        self.scn, self.weight, self.used, self.left, self.horizon, self.next = [0], [0], [0], [0], [0], [None]
        self.views, self.states = {}, {}  # of an Open's place; of a number: from which place on it had a session's state

    def session(self, who):
        return self.sessions.setdefault(who, Session())

    def at(self, who, place):
        """What a number had going on at a place: begun, mode, SCN, how many changes, which cursors."""
        states = self.states.get(who, [])
        found = bisect.bisect_right(states, (place, 1 << 62)) - 1
        return states[found][2] if found >= 0 else (None, "committed", 0, 0, ())

    def unit(self, table, e, place):
        units = self.units.get((table, e), [])
        found = bisect.bisect_right(units, (place, 1 << 62)) - 1
        return units[found][2] if found >= 0 else None

    def given(self, table, place):
        return table.given[bisect.bisect_right(table.given, (place, 1 << 62)) - 1][1]

    def now(self, table, e):
        return self.units.get((table.number, e), [(0, 0, None)])[-1][2]

    def put_unit(self, table, e, place, unit):
        units = self.units.setdefault((table.number, e), [])
        units.append((place + 1, len(units), unit))

    def add(self, entry):
        """Replays one entry, which has to be one that may come here."""
        place, session = len(self.entries), self.session(entry.who)
        for counted in (self.scn, self.weight, self.used, self.left, self.horizon):
            counted.append(counted[-1])
        replay = getattr(self, "add_" + entry.what[0], None) if entry.what else None
        if replay is None or len(entry.what) not in self.LENGTHS.get(entry.what[0], range(5, 1 << 20)):
            entry.record.wrong("it is no entry as docs/report.md has them")
        replay(entry, place, session)
        self.entries.append(entry)
        states = self.states.setdefault(entry.who, [])
        state = (session.begun, session.mode, session.scn, len(session.pending), tuple(sorted(session.cursors)))
        states.append((place + 1, len(states), state))
        self.next.append(self.next_build())

    LENGTHS = {"add": [5], "memory": [3], "begin": [2], "open": [3, 4], "shut": [2], "write": [2], "commit": [1], "rollback": [1], "build": [5],
               "switch": [2], "cancel": [3], "trickle": [2], "evict": [3], "leave": [1], "purge": [1]}

    def table_of(self, record, at):
        number = record.whole(at, 1)
        return self.tables[number - 1] if number <= len(self.tables) else record.wrong("there is no table %d" % number)

    def add_create(self, entry, place, session):
        record, names = entry.record, entry.what[4::2]
        columns = list(zip(names, [record.whole(8 + 2 * at) for at in range(len(names))]))
        if max(record.whole(5), record.whole(6)) > 64:
            record.wrong("a block has at most 64 rows, and an extent at most 64 blocks")
        self.tables.append(Table(len(self.tables) + 1, entry.what[1], record.whole(5, 1), record.whole(6, 1), columns, place))
        self.scn[-1] += 1

    def add_add(self, entry, place, session):
        record, table, name = entry.record, self.table_of(entry.record, 4), entry.what[2]
        if session.begun is not None:
            record.wrong("a transaction of number %d is open since place %d" % (entry.who, session.begun))
        if name in dict(table.columns) or len(table.columns) >= 16:
            record.wrong("table %d has such a column, or 16" % table.number)
        size = record.whole(6)
        table.columns.append((name, size))
        table.defaults.append(value_of(record, entry.what[4], size))
        table.added.append(place)
        self.scn[-1] += 1

    def add_memory(self, entry, place, session):
        table = self.table_of(entry.record, 4)
        if entry.what[2] not in PRIORITIES + ("off",):
            entry.record.wrong("'%s' is no priority" % entry.what[2])
        table.priority, table.opened = None if entry.what[2] == "off" else entry.what[2], False
        if table.priority is None:
            for e in range(-(-table.given[-1][1] // table.extent_rows)):
                self.take_out(table, e, place)
            self.waiting.clear()

    def take_out(self, table, e, place):
        if self.now(table, e):
            self.used[-1] -= self.now(table, e).bytes
            self.put_unit(table, e, place, None)
        build = self.living.pop((table.number, e), None)
        if build:
            build.killed = place

    def add_begin(self, entry, place, session):
        if session.begun is not None:
            entry.record.wrong("a transaction of number %d is open since place %d" % (entry.who, session.begun))
        session.begun, session.mode, session.scn = place, entry.what[1], self.scn[-1]

    def add_open(self, entry, place, session):
        table, cursor = self.table_of(entry.record, 5), entry.record.whole(4)
        if cursor in session.cursors:
            entry.record.wrong("cursor %d of number %d is open" % (cursor, entry.who))
        own = {rid: row for number, rid, row in session.pending if number == table.number}
        scn = self.snapshot(session)
        if len(entry.what) == 4:
            own, scn = {}, self.asked(entry.record)
        session.cursors[cursor] = self.views[place] = View(table, scn, table.given[-1][1], own)
        table.opened = True

    def snapshot(self, session):
        """The SCN that a statement of a session reads at."""
        return self.scn[-1] if session.mode == "committed" else session.scn

    def asked(self, record):
        """The SCN that a cursor asks for, which has to be one that may be asked for."""
        scn = record.whole(6)
        if not self.horizon[-1] <= scn <= self.scn[-1]:
            record.wrong("the SCNs that may be asked for here are those from %d to %d" % (self.horizon[-1], self.scn[-1]))
        return scn

    def add_shut(self, entry, place, session):
        if session.cursors.pop(entry.record.whole(4), None) is None:
            entry.record.wrong("number %d has no such cursor open" % entry.who)

    def add_write(self, entry, place, session):
        if session.begun is None:
            session.begun = place
        for number, rid, row in entry.changes:
            table = self.tables[number - 1]
            holders = table.holders.setdefault(rid, [])
            if holders and holders[-1][2] is None and holders[-1][0] != entry.who:
                entry.record.wrong("row %d of table %d has a change of number %d pending" % (rid, number, holders[-1][0]))
            holders.append([entry.who, place, None])
            if rid > table.given[-1][1]:
                entry.record.wrong("the next row number of table %d is %d, and not %d" % (number, table.given[-1][1], rid))
            if rid == table.given[-1][1]:
                table.given.append((place + 1, rid + 1))
            self.weight[-1] += weight(row)
        session.pending += entry.changes

    def end(self, session, place):
        for number, rid, _ in session.pending:
            for holder in self.tables[number - 1].holders[rid]:
                holder[2] = place if holder[2] is None else holder[2]
        session.begun, session.mode, session.pending = None, "committed", []

    def add_commit(self, entry, place, session):
        self.scn[-1] += 1
        for number, rid, row in session.pending:
            table = self.tables[number - 1]
            scns, rows = table.versions.setdefault(rid, ([], []))
            if scns and scns[-1] == self.scn[-1]:
                rows[-1] = row
            else:
                scns.append(self.scn[-1])
                rows.append(row)
            for kept in (self.now(table, rid // table.extent_rows), self.living.get((number, rid // table.extent_rows))):
                if kept:
                    kept.stale.add(rid)
        self.end(session, place)

    def add_rollback(self, entry, place, session):
        if session.begun is None:
            entry.record.wrong("number %d has no transaction open" % entry.who)
        self.end(session, place)

    def add_build(self, entry, place, session):
        table, (number, e, trickle) = self.table_of(entry.record, 5), [entry.record.whole(at) for at in (4, 6, 7)]
        if number != len(self.builds) + 1 or (table.number, e, trickle) != self.next[-1]:
            entry.record.wrong("the build that comes next here is %s" % build_text(len(self.builds) + 1, self.next[-1]))
        self.credits -= trickle
        self.builds.append(Build(table, e, self.scn[-1], entry.who))
        self.living[(table.number, e)] = self.builds[-1]

    def end_of_build(self, entry):
        number = entry.record.whole(4, 1)
        build = self.builds[number - 1] if number <= len(self.builds) else None
        if build is None or build.ended or build.who != entry.who:
            entry.record.wrong("number %d holds no build %d" % (entry.who, number))
        build.ended = True
        if build.killed is None:
            del self.living[(build.table.number, build.e)]
        return build, build.killed is None and self.used[-1] + build.bytes <= self.area

    def add_switch(self, entry, place, session):
        build, fits = self.end_of_build(entry)
        if not fits:
            entry.record.wrong("its build was killed" if build.killed is not None else "its unit does not fit into the area")
        before = self.now(build.table, build.e)
        self.used[-1] += build.bytes - (before.bytes if before else 0)
        self.put_unit(build.table, build.e, place, build)

    def add_cancel(self, entry, place, session):
        build, fits = self.end_of_build(entry)
        if entry.record.whole(5) == 1:
            if fits or build.killed is not None:
                entry.record.wrong("its unit fits into the area" if fits else "its build was killed")
            self.waiting.add((build.table.number, build.e))

    def add_trickle(self, entry, place, session):
        self.credits += entry.record.whole(4, 1)

    def add_evict(self, entry, place, session):
        table, e = self.table_of(entry.record, 4), entry.record.whole(5)
        if not self.now(table, e):
            entry.record.wrong("extent %d of table %d has no unit" % (e, table.number))
        self.take_out(table, e, place)
        self.waiting.clear()

    def add_leave(self, entry, place, session):
        if session.left or session.begun is not None or session.cursors:
            entry.record.wrong("number %d has something open, or has left" % entry.who)
        session.left = True
        self.left[-1] += 1

    def add_purge(self, entry, place, session):
        self.horizon[-1] = self.keep()

    def keep(self):
        """The least SCN that somebody may still read at: a statement, an open cursor, or a build that is held."""
        cursors = [view.scn for session in self.sessions.values() for view in session.cursors.values()]
        builds = [build.scn for build in self.builds if not build.ended]
        return min([self.scn[-1]] + [self.snapshot(session) for session in self.sessions.values()] + cursors + builds)

    def kept(self, place):
        """How many versions of all rows stand at a place."""
        return sum(table.kept(self.horizon[place], self.scn[place]) for table in self.tables if table.place < place)

    def next_build(self):
        """The table, the extent and the credit of the build that comes next, or None."""
        lists = [[], [], []]
        for table in self.tables:
            for e in range(-(-table.given[-1][1] // table.extent_rows)) if table.priority else ():
                if (table.number, e) in self.living or (table.number, e) in self.waiting:
                    continue
                unit, task = self.now(table, e), (PRIORITIES.index(table.priority), table.number, e)
                if unit is None and (table.priority != "none" or table.opened):
                    lists[0].append(task)
                elif unit and 5 * len(unit.stale) >= max(1, unit.count):
                    lists[1].append(task)
                elif unit and unit.stale and self.credits:
                    lists[2].append(task)
        for trickle, tasks in ((0, lists[0]), (0, lists[1]), (1, lists[2])):
            if tasks:
                return min(tasks)[1:] + (trickle,)
        return None


def value_of(record, field, size):
    """The value of a field in a column of texts of at most so many bytes, or of numbers where that is 0."""
    if size == 0 and field and not re.fullmatch("0|-?[1-9][0-9]{0,18}", field) or size and len(field) > size:
        record.wrong("'%s' is no value of its column" % field)
    return None if field == "" else field if size else int(field)


def weight(row):
    return 64 if row is None else 64 + sum(32 + (len(value) if isinstance(value, str) else 0) for value in row)


def build_text(number, task):
    return "build,%d,%d,%d,%d" % ((number,) + task) if task else "none"
