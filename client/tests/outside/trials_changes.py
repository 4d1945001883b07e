"""Whatever happens to the folder comes to the screen, and then the figure from before is nowhere, not even in a widget that is hidden."""
import os, shutil, struct, time

import screen
from desk import DATE, DAY_SUM, LATE_OWED, OPEN_FILES, OWED, QUARTER, ROW, SPAN, as_anybody, at_cap, english, no_longer_valid, timed, told_of_bar

# After this nothing of a change is under way any more, so that the next one is seen for itself. On a busy machine two may be seen as one: then less
# is tried, and it holds all the same.
ALONE = 0.3
NO_STATEMENT = english('quarter.none', ROW, f'{DATE} {SPAN}')


class Seen:
    """What the pane says after each change."""

    def __init__(self, desk, **more):
        self.desk, self.client, self.amount = desk, desk.open_day(**more), OWED

    def expect(self, what, act, amount, says=None):
        """After the change the pane says the amount, or has none; the amount before it is gone."""
        before, self.amount = self.amount, amount
        headline = english('pays', ROW, f'{DATE} {SPAN}', amount) if amount else NO_STATEMENT
        client = self.client
        client.wait_until(lambda: before is None or client.name_of(client.headline).endswith(f'{before} yuan'), f'{before} before it')
        said = []

        def is_there():
            said.append(client.name_of(client.headline))
            return said[-1] == headline
        took = timed(act, is_there, f'{what}: {headline}', client.told)
        if before not in (None, amount):
            never_back(before, said)
            client.nowhere(before)
        if says:
            client.must_say(says)
        self.desk.tell(f'{what}: {amount or "no figure"} after {took:.2f} s' + (f', {before} is nowhere' if before not in (None, amount) else ''))
        time.sleep(ALONE)

    def expect_nothing(self, what, act, says, headline=''):
        """After the change there is no amount at all, but a sentence."""
        client = self.client
        took = timed(act, lambda: client.name_of(client.headline) == headline, f'{what}: no figure', client.told)
        client.must_say(says)
        client.no_money()
        self.amount = None
        self.desk.tell(f'{what}: no amount anywhere after {took:.2f} s; it says: {says}')


def never_back(before, said):
    """An amount that has gone does not come again: of all that was said, only the first may have it."""
    gone = [before not in text for text in said]
    assert gone == sorted(gone), f'{before} has come again: {list(dict.fromkeys(said))}'


def write(path, content):
    """Writes over a file in place."""
    with open(path, 'wb', buffering=0) as file:
        file.write(content)


def replace(path, content, work):
    """Puts another file in the place of this one, as programs do that save."""
    other = os.path.join(work, 'other')
    write(other, content)
    os.replace(other, path)


def write_unnoticed(path, content):
    """The same length, and the time put back."""
    about = os.stat(path)
    assert about.st_size == len(content)
    with open(path, 'r+b', buffering=0) as file:
        file.write(content)
        os.utime(file.fileno(), ns=(about.st_atime_ns, about.st_mtime_ns))


def in_pieces(content, count):
    size = -(-len(content) // count)
    return [content[first:first + size] for first in range(0, len(content), size)]


def changes(desk):
    seen, kwh = Seen(desk), iter(range(31_500, 20_000, -250))

    def other():
        """Another reading, and what it comes to."""
        energy = next(kwh)
        return desk.interval_bytes(energy), at_cap(energy)

    file, amount = other()
    hover(seen.client)
    seen.expect('written over in place, under a tool tip', lambda: write(desk.interval, file), amount)
    file, amount = other()
    seen.expect('written over in place', lambda: write(desk.interval, file), amount)
    for time_of in ('replaced by renaming', 'replaced by renaming once more'):
        file, amount = other()
        seen.expect(time_of, lambda: replace(desk.interval, file, desk.work), amount)
    file, amount = other()
    seen.expect('same length, time put back', lambda: write_unnoticed(desk.interval, file), amount)
    file, amount = other()
    seen.expect('same length, time put back, once more', lambda: write_unnoticed(desk.interval, file), amount)
    seen.expect('removed', lambda: os.remove(desk.interval), None, english('state.missing'))
    file, amount = other()
    seen.expect('dropped', lambda: write(desk.interval, file), amount)
    drop_and_take(desk, seen)
    subfolder(desk, seen)
    pieces(desk, seen, other)


def hover(client):
    """Lets the pointer rest at the bar of the dearest quarter until a tool tip tells its amount."""
    across, down = client.click_bar(client.chart(), QUARTER)

    def rest():
        screen.xdotool('mousemove', across, down + 3, 'mousemove', across, down + 1)

    def told():
        return next((widget.name for widget in client.top() if widget.role == 'tool tip' and widget.showing), '')
    client.again_until(rest, lambda: told() == told_of_bar('chart.pays', SPAN, OWED), f'a tool tip of {SPAN}')


def drop_and_take(desk, seen):
    """A correction comes and goes; the figure before it is told as void as long as it is there."""
    client, before = seen.client, seen.amount
    took = timed(desk.drop_late, lambda: LATE_OWED in client.name_of(client.headline), 'the corrected amount', client.told)
    client.must_say(no_longer_valid(before, LATE_OWED))
    desk.tell(f'a correction dropped: {LATE_OWED} after {took:.2f} s, {before} only as void')
    time.sleep(ALONE)
    seen.amount = LATE_OWED
    seen.expect('the correction removed', lambda: os.remove(desk.correction), before)


def subfolder(desk, seen):
    """A correction in a new subfolder counts as well."""
    client, before, folder = seen.client, seen.amount, desk.path('late')
    took = timed(lambda: shutil.copytree(desk.given.late, folder), lambda: LATE_OWED in client.name_of(client.headline), 'the amount of a subfolder',
                 client.told)
    desk.tell(f'a subfolder with a correction: {LATE_OWED} after {took:.2f} s')
    time.sleep(ALONE)
    seen.amount = LATE_OWED
    seen.expect('the subfolder removed', lambda: shutil.rmtree(folder), before)


def pieces(desk, seen, other):
    """No figure until the last piece is there. The time that is told counts from there, so the file is begun before."""
    client, before = seen.client, seen.amount
    file, amount = other()
    *first, last = in_pieces(file, 4)
    with open(desk.interval, 'wb', buffering=0) as arriving:
        arriving.write(first[0])
        client.wait_until(lambda: client.name_of(client.headline) == NO_STATEMENT, 'no figure while the file arrives')
        for piece in first[1:]:
            client.nowhere(before, amount)
            arriving.write(piece)
            time.sleep(0.2)     # time to make a mistake
        client.nowhere(before, amount)
        seen.amount = None
        seen.expect('arriving in pieces, from the last one', lambda: arriving.write(last), amount)


def bursts(desk):
    """Changes come while others are being read: the last of each burst may fall at any moment of a reading, also that in which files are watched anew.
    Once it is seen, none of those before it is anywhere."""
    client, times = desk.open_day(), []
    ways = (lambda file: write(desk.interval, file), lambda file: replace(desk.interval, file, desk.work), lambda file: write_unnoticed(desk.interval, file))
    for burst in range(12):
        earlier = [at_cap(31_500 - 100 * (5 * burst + place)) for place in range(4)]
        for place in range(5):
            energy = 31_500 - 100 * (5 * burst + place)
            file, way = desk.interval_bytes(energy), ways[(burst + place) % 3]
            if place < 4:
                way(file)
                time.sleep(0.03 + 0.007 * burst)
        said = f'pays {at_cap(energy)} yuan'
        times.append(timed(lambda: way(file), lambda: client.name_of(client.headline).endswith(said), f'burst {burst + 1}: {said}', client.told))
        client.nowhere(*earlier)
    middle = sorted(times)[len(times) // 2]
    desk.tell(f'{len(times)} bursts of 5 changes: the last of each is seen, and none before it is left (the slowest after {max(times):.2f} s, half of them '
              f'within {middle:.2f} s)')


def disturbed(desk):
    """The folder itself goes, comes, is shut, emptied, exchanged."""
    seen = Seen(desk, under=as_anybody())
    away, other = os.path.join(desk.work, 'away'), os.path.join(desk.work, 'other-day')
    gone = english('gone', english('unread.absent'))
    seen.expect_nothing('the folder renamed away', lambda: os.rename(desk.day, away), gone)
    seen.expect('the folder renamed back', lambda: os.rename(away, desk.day), OWED)

    shut = english('gone', english('unread.permission'))
    seen.expect_nothing('the folder made unreadable', lambda: os.chmod(desk.day, 0), shut)
    seen.expect('the folder made readable', lambda: os.chmod(desk.day, 0o755), OWED)
    seen.expect('the file made unreadable', lambda: os.chmod(desk.interval, 0), None, english('state.missing-named', os.path.basename(desk.interval)))
    seen.expect('the file made readable', lambda: os.chmod(desk.interval, 0o644), OWED)

    desk.copy(desk.given.example, other)
    write(os.path.join(other, f'{DATE}-q{QUARTER}.interval'), desk.interval_bytes(30_000))

    def exchange():
        os.rename(desk.day, away)
        os.rename(other, desk.day)
    seen.expect('another folder in its place', exchange, at_cap(30_000))

    def exchange_back():
        shutil.rmtree(desk.day)
        os.rename(away, desk.day)
    seen.expect('the first folder in its place again', exchange_back, OWED)

    def empty():
        for name in os.listdir(desk.day):
            os.remove(desk.path(name))
    # The day that was shown is shown as empty, and its plants have no names any more.
    seen.expect_nothing('the folder emptied', empty, english('no-files'), english('quarter.none', 'Row 101', f'{DATE} {SPAN}'))

    def fill():
        shutil.copytree(desk.given.example, desk.day, dirs_exist_ok=True)
    seen.expect('the folder filled again', fill, OWED)
    seen.expect_nothing('the folder removed with all it holds', lambda: shutil.rmtree(desk.day), gone)
    seen.expect('the folder made anew', lambda: shutil.copytree(desk.given.example, desk.day), OWED)


def refused_correction(desk):
    """A correction that names nobody: the figure without it is not valid either, at once and when it is no longer fresh."""
    seen = Seen(desk)
    slip = bytearray(desk.late_bytes())
    struct.pack_into('<H', slip, 9 + 2, 735)
    seen.expect('a refused correction dropped', lambda: write(desk.correction, bytes(slip)), None)
    seen.client.must_say(english('state.refused-correction', '').strip())
    seen.client.nowhere(OWED, DAY_SUM)
    desk.tell(f'when it is no longer fresh: “{english("state.refused-correction", "").strip()}”; {OWED} and {DAY_SUM} are nowhere')
    seen.expect('the right one in its place: corrected', lambda: write(desk.correction, desk.late_bytes()), LATE_OWED)

    damaged(desk, seen)

    other = desk.path('second.correction')
    second = bytearray(desk.late_bytes())
    struct.pack_into('<I', second, 9 + 7, 25_000)
    seen.expect('a second, different correction', lambda: write(other, bytes(second)), None)
    seen.client.nowhere(OWED, LATE_OWED)
    seen.client.must_say(english('state.two', os.path.basename(desk.correction), 'second.correction'))
    desk.tell(f'two corrections: neither counts, {OWED} is nowhere either')
    seen.expect('the second removed', lambda: os.remove(other), LATE_OWED)


def damaged(desk, seen):
    """The correction's first byte is damaged: nobody knows what it is, the figure without it stands with a reservation wherever it stands."""
    client, name = seen.client, os.path.basename(desk.correction)
    open_files = english('listing.several', OPEN_FILES, name)
    whole = desk.late_bytes()
    seen.expect('a correction with its first byte damaged', lambda: write(desk.correction, b'X' + whole[1:]), OWED)
    client.must_say(english('reservation.named', name))
    client.must_say(english('reservation.several', open_files))
    client.press('ctrl+4')
    client.must_say(english('reservation.several', open_files))
    client.press('ctrl+1')
    assert client.description_of(client.chart()).endswith(english('reservation.several', open_files)), client.description_of(client.chart())
    client.nowhere(english('day.ready'))
    desk.tell(f'{name} is named in the headline, the pane, the list of files and the chart, and nothing is ready to book')
    seen.amount = None      # it stands beside the new one, as the figure before the correction
    seen.expect('put right', lambda: write(desk.correction, whole), LATE_OWED)
