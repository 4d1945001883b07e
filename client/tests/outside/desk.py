"""A desk for one trial of the client: a copy of the example day, settings of its own, the words of both tongues, and the client on it.

What is asserted is what is said, and what is nowhere once something else is said; never after what time. The client takes all figures away while a
reading takes long, so on a busy machine a widget may be empty for a moment: what has to be there is waited for.
"""
import os, re, shutil, struct, subprocess, tempfile, time

import screen

HERE = os.path.dirname(os.path.abspath(__file__))
WORDS = os.path.join(HERE, '..', '..', 'words')

# The example day (client/tools/make-day): its lowest row, what the day costs it, and its dearest quarter.
ROW, DATE, DAY_SUM = 'Yuanpan Wind Farm (row 101)', '2026-10-31', '45,622.24'
QUARTER, SPAN, OWED = 12, '03:00–03:15', '5,632.82'
# The same after the late correction.
LATE_SUM, LATE_OWED = '44,495.64', '4,506.22'
# The quarter whose file states its terms, and what it costs under these and under those as issued.
STATED, STATED_OWED, ISSUED_OWED = 16, '3,338.23', '3,644.41'
# The quarter that the thermal average rules, in which it owes nothing, and what it owes there for a kWh of wind.
CALM, BREATH_OWED = 22, '0.17'

AGAIN = 5           # seconds after which something is done once more
MONEY = re.compile(r'\d\.\d{2}(?!\d)')


class Words:
    """The sentences of one tongue, by their keys; holes are filled with what is given."""

    def __init__(self, column):
        self.all = {}
        for name in sorted(os.listdir(WORDS)):
            if name.endswith('.tsv'):
                with open(os.path.join(WORDS, name), encoding='utf-8') as table:
                    lines = [line.rstrip('\n').split('\t') for line in table][1:]
                self.all.update((line[0], line[column]) for line in lines if len(line) == 3)

    def __call__(self, key, *holes):
        return self.all[key].format(*holes)

    def patterns(self):
        """What matches a sentence of this tongue, whatever fills its holes; only of such as have two words of letters besides."""
        for sentence in self.all.values():
            parts = re.split(r'\{\d\}', sentence)
            if len(re.findall(r'[A-Za-z]{2,}', ' '.join(parts))) >= 2:
                yield re.compile('.*'.join(map(re.escape, parts)), re.DOTALL)


english, chinese = Words(1), Words(2)

# Two files of the example day are refused: every figure is told with it.
OPEN_FILES = english('listing.several', '2026-10-31-q18.interval', '2026-10-31-q54.correction')
RESERVATION = english('reservation.several', OPEN_FILES)


def told_of_bar(key, *holes):
    """What the chart tells of a quarter with a statement."""
    return english('chart.reserved', english(key, *holes), RESERVATION)


def told_of_no_bar(*holes):
    """What it tells of one without."""
    return english('listing.sentences', english('chart.hindered', *holes), RESERVATION)


def yuan(fen):
    return f'{fen // 100:,}.{fen % 100:02}'


def span(quarter):
    return '–'.join(f'{at // 4:02}:{at % 4 * 15:02}' for at in (quarter, quarter + 1))


def at_cap(kwh):
    """What row 101 pays in its dearest quarter with another meter reading: there it is always at its cap, half the tariff."""
    return yuan(kwh * 3545 // 200)


def no_longer_valid(before, now):
    """The sentence of a payer whose amount a correction has changed."""
    return english('void.changed', *(english('amount.pays', amount) for amount in (before, now)))


def as_anybody():
    """Words before a command that take away what lets root read everything."""
    return ('setpriv', '--bounding-set=-dac_override,-dac_read_search', '--') if os.geteuid() == 0 else ()


def timed(act, seen, what, tell=None):
    """Does something and hands back after how many seconds it was seen. The time is told and nothing hangs on it: a busy machine may take longer."""
    begun = time.monotonic()
    act()
    screen.wait_until(seen, what, tell)
    return time.monotonic() - begun


class Client(screen.Program):
    """The client with a folder open. Widgets are kept by their address, since they live as long as the window: asking one again takes a millisecond."""

    def says(self, text):
        """A widget that shows and says this, alone or within a longer text; cells are left out."""
        found = (widget for widget in self.widgets(hidden=False, cells=False) if any(text in told for told in widget.texts()))
        return next(found, None)

    def must_say(self, text):
        return self.wait_until(lambda: self.says(text), repr(text))

    def label(self, *texts):
        """The label that says all of this, once there is one."""
        def found():
            return next((label for label in self.find_all('label') if all(text in label.name for text in texts)), None)
        return self.wait_until(found, f'a label with {texts!r}')

    def name_of(self, widget):
        return self.again(widget).name

    def description_of(self, widget):
        return self.again(widget).description

    def must_begin(self, widget, text):
        """The widget comes to say something that begins with this."""
        self.wait_until(lambda: self.name_of(widget).startswith(text), f'{widget} says {text!r}..')

    def must_describe(self, widget, text):
        """The widget comes to be described by just this."""
        self.wait_until(lambda: self.description_of(widget) == text, f'{widget} is described by {text!r}')

    # Where something is not there yet, it is waited for.

    def once(self, look, what):
        """What a look hands back, once it finds something."""
        def found():
            try:
                return look()
            except LookupError:
                return None
        return self.wait_until(found, what)

    def find(self, role=None, name=None, hidden=False):
        return self.once(lambda: screen.Program.find(self, role, name, hidden), f'{role or "widget"} {name!r}')

    def table(self, name, all_columns=False, hidden=False):
        return self.once(lambda: screen.Program.table(self, name, all_columns, hidden), f'table {name!r}')

    def cell(self, name, row, column):
        return self.once(lambda: screen.Program.cell(self, name, row, column), f'a cell of table {name!r}')

    def again_until(self, act, seen, what):
        """Does something over and over until it has worked: what hangs on the time between two clicks, or on a pointer that rests, may not work on a
        busy machine."""
        def worked():
            act()
            try:
                return screen.wait_until(seen, what, limit=AGAIN)
            except screen.TooLate:
                return None
        return self.wait_until(worked, what)

    def work_out_again(self):
        """F5. The label tells the time to the second, so another second than the one that it tells has to have come."""
        as_of = self.label(english('as-of', '', '').split('  ')[0])
        before = self.name_of(as_of)
        self.wait_until(lambda: time.strftime('%H:%M:%S') not in before, 'another second')
        self.press('F5')
        self.wait_until(lambda: self.name_of(as_of) not in ('', before), 'another time of working out')
        return as_of

    def chart(self, words=english):
        return self.find('chart', words('chart.name'))

    def click_bar(self, chart, quarter):
        """Clicks at the bar of a quarter. Two clicks elsewhere tell where quarters lie; from there its place follows, whatever the margins are."""
        left, top, wide, high = self.extents(chart)

        def click_at(across):
            before = self.description_of(chart)
            self.click_at(across, top + high // 2)
            self.wait_until(lambda: self.description_of(chart) != before, 'another quarter')
            hour, minute = map(int, re.match(r'(\d\d):(\d\d)', self.description_of(chart)).groups())
            return hour * 4 + minute // 15
        first, second = left + wide // 3, left + wide * 9 // 10
        early, late = click_at(first), click_at(second)
        assert early < late, f'quarter {early} lies to the right of {late}'
        across = round(first + (quarter - early) * (second - first) / (late - early))
        assert click_at(across) == quarter, f'at {across} lies {self.description_of(chart)!r}'
        return across, top + high // 2

    def nowhere(self, *texts):
        """Fails if any widget, hidden or not, says one of these."""
        everything = self.everything()
        left = [told for told in everything if any(text in told for text in texts)]
        assert not left, f'{" or ".join(texts)} is still there: {left[:5]}'

    def no_money(self):
        """Fails if any widget, hidden or not, holds an amount."""
        left = [told for told in self.everything() if MONEY.search(told)]
        assert not left, f'amounts are still there: {left[:5]}'


class Desk:
    """Everything lies in a folder of its own and goes with it. What fails leaves a picture."""

    def __init__(self, given, trial):
        self.given, self.trial, self.clients = given, trial, []
        self.work = tempfile.mkdtemp(prefix='outside-')
        self.day, self.config, self.out = (os.path.join(self.work, name) for name in ('day', 'config', 'out'))
        for name in ('home', 'config', 'cache', 'out'):
            os.mkdir(os.path.join(self.work, name))
        self.copy(given.example, self.day)

    def __enter__(self):
        return self

    def __exit__(self, kind, *_):
        try:
            if kind and self.clients:
                self.take_picture(self.clients[-1])
            for client in self.clients:
                client.end()
        finally:
            self.clear_away()

    def clear_away(self):
        for folder, names, _ in os.walk(self.work):
            for name in names:
                path = os.path.join(folder, name)
                if not os.path.islink(path):
                    os.chmod(path, 0o700)
        shutil.rmtree(self.work)

    def take_picture(self, client):
        path = os.path.join(self.given.pictures, f'failed-{self.trial}.png')
        try:
            client.picture(path, whole_screen=True)
            print(f'outside: a picture of it: {path}', flush=True)
        except (OSError, subprocess.SubprocessError) as error:
            print(f'outside: no picture could be taken: {error}', flush=True)

    def tell(self, sentence):
        """One thing that was tried and holds."""
        self.given.told += 1
        print(f'outside: {sentence}', flush=True)

    # Files. What is refused and was written a moment ago is said to be arriving, so the copies are an hour old.

    @staticmethod
    def age(path, seconds=3600):
        then = time.time() - seconds
        os.utime(path, (then, then))

    def copy(self, source, target):
        shutil.copytree(source, target)
        for name in os.listdir(target):
            self.age(os.path.join(target, name))

    def path(self, name):
        return os.path.join(self.day, name)

    @property
    def interval(self):
        """The interval file of the dearest quarter."""
        return self.path(f'{DATE}-q{QUARTER}.interval')

    @property
    def correction(self):
        return self.path(f'{DATE}-q{QUARTER}.correction')

    def interval_bytes(self, kwh):
        """That file with another meter reading of row 101, which stands first: 15 bytes of head, 7 of the row."""
        with open(os.path.join(self.given.example, f'{DATE}-q{QUARTER}.interval'), 'rb') as file:
            changed = bytearray(file.read())
        struct.pack_into('<I', changed, 22, kwh)
        return bytes(changed)

    def late_bytes(self):
        with open(os.path.join(self.given.late, f'{DATE}-q{QUARTER}.correction'), 'rb') as file:
            return file.read()

    def drop_late(self):
        """As the documentation says: cp examples/late/* FOLDER."""
        for name in os.listdir(self.given.late):
            shutil.copy(os.path.join(self.given.late, name), self.day)

    # The client.

    def environment(self):
        return {'HOME': f'{self.work}/home', 'XDG_CONFIG_HOME': self.config, 'XDG_CACHE_HOME': f'{self.work}/cache', 'XDG_DATA_HOME': f'{self.work}/home/data',
                'LC_ALL': 'C.UTF-8', 'LANGUAGE': ''}

    def start(self, *arguments, under=()):
        """Starts the client with these arguments; `under` are words before it. What it writes to its output is kept."""
        with open(f'{self.work}/output', 'ab') as output:
            client = Client([*under, self.given.program, *arguments], env=self.environment(), stdout=output, stderr=output)
        self.clients.append(client)
        return client

    def open_day(self, **more):
        """The client on the example day, once the day's sum is there, with the widgets that are asked over and over."""
        client = self.start(self.day, **more)
        client.answer = client.label(DAY_SUM)
        client.headline = client.label(f'{SPAN}: pays {OWED} yuan')
        return client

    def output(self):
        with open(f'{self.work}/output', 'rb') as output:
            return output.read().decode('utf-8', 'replace')
