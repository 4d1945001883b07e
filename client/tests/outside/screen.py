"""Drive a program from outside, as a person does: read what it says through the bus of screen readers (AT-SPI), press real keys and move the
real pointer (xdotool). For /usr/bin/python3 (python3-gi comes with Debian's python3-pyatspi), inside client/tools/display:

    with screen.Program(['build/wheatrudder', folder]) as program:
        program.wait_until(lambda: program.shows('584.92'), 'the amount')
        program.press('ctrl+2')
        heads, rows = program.table('Day book')

The protocol is spoken directly, over Gio: pyatspi and libatspi under it keep names and states and may hand back old ones, while here
nothing is kept, each reading asks the program for everything. Calls go out in bundles, so a window of a thousand texts is read in well under a second.
Every wait is for something to be seen, and has the same limit, which is there so that nothing waits for ever: how fast the machine is, and how busy,
makes no difference. Past it the error says what was showing.
"""
import functools, os, signal, subprocess, time

import gi
gi.require_version('Gio', '2.0')
from gi.repository import Gio, GLib

ACCESSIBLE = 'org.a11y.atspi.Accessible'
COMPONENT = 'org.a11y.atspi.Component'
TABLE = 'org.a11y.atspi.Table'
TEXT = 'org.a11y.atspi.Text'
VALUE = 'org.a11y.atspi.Value'
ROOT = '/org/a11y/atspi/accessible/root'
NOTHING = '/org/a11y/atspi/null'

# Numbers of states in AT-SPI.
CHECKED, ENABLED, FOCUSED, SELECTED, SHOWING = 4, 8, 12, 23, 25
# What is part of a widget and says to have the keys as long as it is the chosen one there: only true if the widget has them.
ITEMS = ('cell', 'page tab', 'list item', 'tree item')

POLL = 0.02
LIMIT = 60          # seconds; no promise of anybody
BUNDLE = 200        # questions under way at once


class TooLate(AssertionError):
    """What was waited for did not come within its limit."""


class NoAnswer(AssertionError):
    """The program has ended, or does not answer."""


def wait_until(condition, what, tell=None, limit=LIMIT):
    """Waits until the condition holds and hands back what it gave. `tell` gives the text that helps if it never does."""
    end = time.monotonic() + limit
    while True:
        holds = condition()
        if holds:
            return holds
        if time.monotonic() > end:
            raise TooLate(f'not within {limit} s: {what}' + (f'\n{tell()}' if tell else ''))
        time.sleep(POLL)


def xdotool(*words):
    """Runs xdotool and hands back what it printed, '' if it found nothing."""
    run = subprocess.run(['xdotool', *map(str, words)], stdout=subprocess.PIPE, stderr=subprocess.DEVNULL, timeout=LIMIT, text=True)
    return run.stdout.strip()


class Bus:
    """The bus of screen readers. Questions are (name on the bus, path, interface, method, arguments)."""

    def __init__(self):
        session = Gio.bus_get_sync(Gio.BusType.SESSION, None)
        address = session.call_sync('org.a11y.Bus', '/org/a11y/bus', 'org.a11y.Bus', 'GetAddress', None, None, 0, LIMIT * 1000, None).unpack()[0]
        flags = Gio.DBusConnectionFlags.AUTHENTICATION_CLIENT | Gio.DBusConnectionFlags.MESSAGE_BUS_CONNECTION
        self.bus = Gio.DBusConnection.new_for_address_sync(address, flags, None, None)

    def ask(self, questions):
        """The answers in the order of the questions; None where the object is gone by now."""
        answers = []
        for first in range(0, len(questions), BUNDLE):
            answers += self.bundle(questions[first:first + BUNDLE])
        return answers

    def bundle(self, questions):
        answers, left = [None] * len(questions), len(questions)

        def answered(bus, result, place):
            nonlocal left
            left -= 1
            try:
                given = bus.call_finish(result).unpack()
                answers[place] = given[0] if len(given) == 1 else given
            except GLib.Error as error:
                answers[place] = error

        for place, (name, path, interface, method, arguments) in enumerate(questions):
            self.bus.call(name, path, interface, method, arguments, None, 0, LIMIT * 1000, None, answered, place)
        while left:
            GLib.MainContext.default().iteration(True)
        return [self.settled(answer) for answer in answers]

    @staticmethod
    def settled(answer):
        if not isinstance(answer, GLib.Error):
            return answer
        silent = (Gio.IOErrorEnum.TIMED_OUT, Gio.IOErrorEnum.CLOSED)
        ended = (Gio.DBusError.NO_REPLY, Gio.DBusError.SERVICE_UNKNOWN, Gio.DBusError.NAME_HAS_NO_OWNER, Gio.DBusError.TIMED_OUT, Gio.DBusError.TIMEOUT)
        if any(answer.matches(Gio.io_error_quark(), code) for code in silent) or any(answer.matches(Gio.DBusError.quark(), code) for code in ended):
            raise NoAnswer(f'the program has ended or does not answer: {answer.message}')
        return None

    def applications(self):
        """Name on the bus and process id of every program that speaks to screen readers."""
        found = self.ask([('org.a11y.atspi.Registry', ROOT, ACCESSIBLE, 'GetChildren', None)])[0] or []
        for name, _ in found:
            try:
                pid = self.ask([('org.freedesktop.DBus', '/org/freedesktop/DBus', 'org.freedesktop.DBus', 'GetConnectionUnixProcessID',
                                 GLib.Variant('(s)', (name,)))])[0]
            except NoAnswer:
                continue
            if pid is not None:
                yield name, pid


@functools.cache
def get(interface, name):
    """The last three parts of a question for a property."""
    return 'org.freedesktop.DBus.Properties', 'Get', GLib.Variant('(ss)', (interface, name))


class Ears:
    """What a program tells a screen reader by itself, without being asked: (what, detail, first number, address), as in ('StateChanged', 'focused', 1, ..)."""

    def __init__(self):
        self.bus, self.told = Bus().bus, []
        for event in ('object:', 'focus:'):
            self.bus.call_sync('org.a11y.atspi.Registry', '/org/a11y/atspi/registry', 'org.a11y.atspi.Registry', 'RegisterEvent',
                               GLib.Variant('(sass)', (event, [], '')), None, 0, LIMIT * 1000, None)
        self.bus.signal_subscribe(None, 'org.a11y.atspi.Event.Object', None, None, None, Gio.DBusSignalFlags.NONE, self.take)

    def __enter__(self):
        return self

    def __exit__(self, *_):
        self.bus.close_sync(None)

    def take(self, _, sender, path, __, event, arguments):
        detail, number = arguments.unpack()[:2]
        self.told.append((event, detail, number, (sender, path)))

    def heard(self, program):
        """What was told since the last time. The program is asked something on the same way: the bus keeps the order, so that what it told before it
        answers is here by then."""
        self.bus.call_sync(program.name, ROOT, *get(ACCESSIBLE, 'Name'), None, 0, LIMIT * 1000, None)
        while GLib.MainContext.default().iteration(False):
            pass
        told, self.told = self.told, []
        return told


# The last three parts of the question where on the screen something is: left, top, width and height.
EXTENTS = COMPONENT, 'GetExtents', GLib.Variant('(u)', (0,))


class Widget:
    """One object of the program as it was at one moment: role and name, and whether it and all around it were showing."""

    def __init__(self, address, above):
        self.address, self.above = address, above
        self.role = self.name = self.description = self.text = ''
        self.value = None
        self.states, self.interfaces = set(), []
        self.below = []

    @property
    def showing(self):
        return SHOWING in self.states and (self.above is None or self.above.showing)

    @property
    def enabled(self):
        return ENABLED in self.states

    @property
    def checked(self):
        return CHECKED in self.states

    @property
    def selected(self):
        return SELECTED in self.states

    def texts(self):
        """Everything that it says, each text once."""
        value = '' if self.value is None else f'{self.value:g}'
        return list(dict.fromkeys(text for text in (self.name, self.description, self.text, value) if text))

    def __repr__(self):
        return f'<{self.role} {self.name!r}{"" if self.showing else " hidden"}>'


class Program:
    """A program that runs, has a window and answers."""

    def __init__(self, argv, env=None, **more):
        """Starts it and waits for its window. `env` is added to the environment; `more` goes to subprocess.Popen."""
        self.argv = [str(word) for word in argv]
        self.process = subprocess.Popen(self.argv, env={**os.environ, **(env or {})}, start_new_session=True, **more)
        try:
            self.bus = Bus()
            self.name = None
            wait_until(self.has_window, f'a window of {self.argv[0]}')
            wait_until(self.is_active, f'keys go to {self.argv[0]}')
        except BaseException:
            self.end()
            raise

    def __enter__(self):
        return self

    def __exit__(self, *_):
        self.end()

    # Processes and windows.

    def pids(self):
        """The process that was started and all below it: the program may run under a shell or under strace."""
        pids = [self.process.pid]
        for pid in pids:
            try:
                for thread in os.listdir(f'/proc/{pid}/task'):
                    with open(f'/proc/{pid}/task/{thread}/children') as children:
                        pids += map(int, children.read().split())
            except OSError:
                pass
        return pids

    def must_run(self):
        if self.process.poll() is not None:
            raise NoAnswer(f'{self.argv[0]} has ended with {self.process.returncode}')

    def has_window(self):
        self.must_run()
        pids = self.pids()
        for name, pid in self.bus.applications():
            if pid in pids:
                self.name, self.pid = name, pid
                return any(widget.showing for widget in self.top())
        return False

    def is_active(self):
        """Whether the window that gets the keys is the program's."""
        pid = xdotool('getactivewindow', 'getwindowpid')
        return pid.isdigit() and int(pid) in self.pids()

    def window(self):
        """The X window on top that is the program's: the active one, or the first that can be seen."""
        if self.is_active():
            return int(xdotool('getactivewindow'))
        seen = xdotool('search', '--onlyvisible', '--pid', self.pid).split()
        if not seen:
            raise TooLate(f'{self.argv[0]} has no window that can be seen')
        return int(seen[0])

    def end(self):
        """Ends it and everything that it started; hands back its exit status, negative for a signal."""
        for ask in (signal.SIGTERM, signal.SIGKILL):
            try:
                os.killpg(self.process.pid, ask)
            except ProcessLookupError:
                pass
            try:
                return self.process.wait(LIMIT / 4)
            except subprocess.TimeoutExpired:
                continue
        return self.process.wait(LIMIT)

    def close(self):
        """Closes the active window by the window manager's key, as a person does, and waits for the program's end; its exit status."""
        self.press('alt+F4')
        wait_until(lambda: self.process.poll() is not None, f'{self.argv[0]} ends when its window is closed')
        return self.process.returncode

    # Reading.

    def ask(self, questions):
        self.must_run()
        return self.bus.ask(questions)

    def top(self):
        """Its windows."""
        found = self.ask([(self.name, ROOT, ACCESSIBLE, 'GetChildren', None)])[0] or []
        widgets = [Widget(address, None) for address in found]
        self.fill(widgets)
        return widgets

    def fill(self, widgets):
        """Asks for what each widget is and says."""
        parts = ((ACCESSIBLE, 'GetRoleName', None), (ACCESSIBLE, 'GetState', None), (ACCESSIBLE, 'GetInterfaces', None),
                 get(ACCESSIBLE, 'Name'), get(ACCESSIBLE, 'Description'))
        answers = self.ask([(*widget.address, *part) for widget in widgets for part in parts])
        for place, widget in enumerate(widgets):
            role, states, interfaces, name, description = answers[5 * place:5 * place + 5]
            widget.role, widget.interfaces = role or '', interfaces or []
            widget.states = {32 * word + bit for word, bits in enumerate(states or []) for bit in range(32) if bits >> bit & 1}
            widget.name, widget.description = name or '', description or ''
        spoken = [widget for widget in widgets if TEXT in widget.interfaces]
        texts = self.ask([(*widget.address, TEXT, 'GetText', GLib.Variant('(ii)', (0, -1))) for widget in spoken])
        for widget, text in zip(spoken, texts):
            widget.text = text or ''
        measured = [widget for widget in widgets if VALUE in widget.interfaces]
        values = self.ask([(*widget.address, *get(VALUE, 'CurrentValue')) for widget in measured])
        for widget, value in zip(measured, values):
            widget.value = value

    def widgets(self, hidden=True, cells=True):
        """All widgets at this moment, those above before those below, then the cells and heads of their tables. A table that shows has all its cells,
        also those that are scrolled away, but none of columns or rows that are folded away."""
        found, tables, level = [], [], self.top()
        while level:
            level = [widget for widget in level if hidden or widget.showing]
            found += level
            tables += [widget for widget in level if TABLE in widget.interfaces]
            level = self.below([widget for widget in level if TABLE not in widget.interfaces])
            self.fill(level)
        if cells:
            parts = self.below(tables)
            self.fill_cells(parts, hidden)
            found += [part for part in parts if hidden or part.showing]
        return found

    def below(self, widgets):
        """What lies right below these widgets, not filled yet."""
        children = self.ask([(*widget.address, ACCESSIBLE, 'GetChildren', None) for widget in widgets])
        for widget, addresses in zip(widgets, children):
            widget.below = [Widget(address, widget) for address in addresses or [] if address[1] != NOTHING]
        return [part for widget in widgets for part in widget.below]

    def fill_cells(self, cells, hidden):
        """Asks as little as can be, since a table may have thousands: a cell's name and, if it matters, whether it has room at all."""
        names = self.ask([(*cell.address, *get(ACCESSIBLE, 'Name')) for cell in cells])
        room = [None] * len(cells) if hidden else self.ask([(*cell.address, *EXTENTS) for cell in cells])
        for cell, name, extents in zip(cells, names, room):
            cell.role, cell.name = 'cell', name or ''
            if hidden or extents and extents[2] > 0 and extents[3] > 0:
                cell.states = {SHOWING}

    def again(self, widget):
        """The same widget as it is now; far faster than finding it again."""
        now = Widget(widget.address, widget.above)
        self.fill([now])
        return now

    def showing(self):
        """The texts of all widgets that show."""
        return [text for widget in self.widgets(hidden=False) for text in widget.texts()]

    def everything(self):
        """The texts of all widgets, hidden ones too."""
        return [text for widget in self.widgets() for text in widget.texts()]

    def shows(self, text):
        """Whether a widget that shows says this, alone or within a longer text."""
        plain = any(text in told for widget in self.widgets(hidden=False, cells=False) for told in widget.texts())
        return plain or any(text in told for told in self.showing())

    def holds(self, text):
        """Whether any widget says this, a hidden one too."""
        return any(text in told for told in self.everything())

    def find_all(self, role=None, name=None, hidden=False):
        """The widgets of a role (as AT-SPI names it: 'push button', 'label', 'table', 'page tab', ..) and an accessible name; cells only by their role."""
        found = self.widgets(hidden, cells=role == 'cell')
        return [widget for widget in found if role in (None, widget.role) and name in (None, widget.name)]

    def find(self, role=None, name=None, hidden=False):
        """The first of them; an error that tells what shows if there is none."""
        found = self.find_all(role, name, hidden)
        if not found:
            raise LookupError(f'no {role or "widget"} {name!r}\n{self.told()}')
        return found[0]

    def focused(self):
        """The widget that has the keys, or the part of it that is chosen (a table's cell, not the table); None if none has."""
        found = [widget for widget in self.widgets(hidden=False, cells=False) if FOCUSED in widget.states and widget.role not in ITEMS]
        if not found:
            return None
        parts = self.below(found[-1:])
        states = self.ask([(*part.address, ACCESSIBLE, 'GetState', None) for part in parts])
        chosen = [part for part, words in zip(parts, states) if words and words[0] >> FOCUSED & 1]
        return self.again(chosen[0]) if chosen else found[-1]

    def table(self, name, all_columns=False, hidden=False):
        """The heads and the rows of a table by its accessible name, as texts, without columns that are folded away."""
        tables = [widget for widget in self.find_all(None, name, hidden) if TABLE in widget.interfaces]
        if not tables:
            raise LookupError(f'no table {name!r}\n{self.told()}')
        where = tables[0].address
        rows, columns = self.ask([(*where, *get(TABLE, 'NRows')), (*where, *get(TABLE, 'NColumns'))])
        rows, columns = rows or 0, list(range(columns or 0))
        if rows and not all_columns:
            columns = self.unfolded(where, columns)
        heads = self.ask([(*where, TABLE, 'GetColumnDescription', GLib.Variant('(i)', (column,))) for column in columns])
        cells = self.cells(where, [(row, column) for row in range(rows) for column in columns])
        names = self.ask([(*cell, *get(ACCESSIBLE, 'Name')) for cell in cells])
        texts = [text or '' for text in names]
        return [head or '' for head in heads], [texts[first:first + len(columns)] for first in range(0, len(texts), len(columns) or 1)]

    def cells(self, where, places):
        found = self.ask([(*where, TABLE, 'GetAccessibleAt', GLib.Variant('(ii)', place)) for place in places])
        return [cell or (self.name, NOTHING) for cell in found]

    def unfolded(self, where, columns):
        """The columns that have a width."""
        cells = self.cells(where, [(0, column) for column in columns])
        extents = self.ask([(*cell, *EXTENTS) for cell in cells])
        return [column for column, extent in zip(columns, extents) if extent and extent[2] > 0]

    def cell(self, name, row, column):
        """A table's cell as a widget, to click at."""
        tables = [widget for widget in self.find_all(None, name) if TABLE in widget.interfaces]
        if not tables:
            raise LookupError(f'no table {name!r}\n{self.told()}')
        cell = Widget(self.cells(tables[0].address, [(row, column)])[0], tables[0])
        self.fill([cell])
        return cell

    def told(self, most=80):
        """What is showing, for an error."""
        try:
            texts = self.showing()
        except NoAnswer as silence:
            return str(silence)
        more = [f'.. and {len(texts) - most} more'] if len(texts) > most else []
        return 'showing:\n' + '\n'.join([f'    {text}' for text in texts[:most]] + more)

    def wait_until(self, condition, what):
        """As the function of that name; the error tells what is showing."""
        return wait_until(condition, what, self.told)

    # Keys and pointer.

    def press(self, *keys):
        """Presses keys one after the other, as xdotool names them: 'ctrl+2', 'F5', 'Right', 'Tab', 'Return'."""
        wait_until(self.is_active, f'keys go to {self.argv[0]}')
        xdotool('key', '--clearmodifiers', '--delay', 5, *keys)

    def type(self, text):
        wait_until(self.is_active, f'keys go to {self.argv[0]}')
        xdotool('type', '--clearmodifiers', '--delay', 5, '--', text)

    def extents(self, widget):
        """Left, top, width and height on the screen."""
        extents = self.ask([(*widget.address, *EXTENTS)])[0]
        if extents is None or extents[2] <= 0 or extents[3] <= 0:
            raise LookupError(f'{widget} is nowhere on the screen')
        return extents

    def resting(self, widget):
        """Where it is once it stays there: a table may still be scrolling."""
        places = [None]

        def rests():
            places.append(self.extents(widget))
            return places[-1] == places[-2] and places[-1]
        return wait_until(rests, f'{widget} stays where it is')

    def click(self, widget, button=1, times=1):
        """Clicks at a widget's middle."""
        left, top, width, height = self.resting(widget)
        self.click_at(left + width // 2, top + height // 2, button, times)

    @staticmethod
    def click_at(across, down, button=1, times=1):
        xdotool('mousemove', across, down, 'click', '--repeat', times, '--delay', 30, button)

    def picture(self, path, whole_screen=False):
        """Writes what the window, or the whole screen, looks like to a PNG."""
        window = 'root' if whole_screen else str(self.window())
        subprocess.run(['import', '-silent', '-window', window, f'png:{path}'], check=True, timeout=LIMIT)
        return path
