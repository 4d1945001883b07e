"""Try the day's book without a window: what it says, what it prints, and its exit status, on whole and on damaged days.

    try_print.py PRINT EXAMPLE

PRINT is the command (wheatrudder-print, or `tools/client --print`), EXAMPLE the example day. No display is there.
"""
import csv, io, os, shlex, shutil, subprocess, sys, tempfile

READY, NOT_READY, COULD_NOT_RUN = 0, 1, 2
STATED = 16     # the quarter of the example whose file states its terms
CALM = 22       # the one without wind and sun, which the thermal average rules
LAST = 'It may be a correction of any quarter, so no figure is final.'
held = 0


def run(*arguments, tongue='C.UTF-8'):
    """What the program answers: exit status, standard output, standard error."""
    environment = {name: value for name, value in os.environ.items() if name not in ('DISPLAY', 'WAYLAND_DISPLAY', 'QT_QPA_PLATFORM')}
    done = subprocess.run([*PRINT, *arguments], env={**environment, 'LC_ALL': tongue}, capture_output=True)
    return done.returncode, done.stdout.decode(), done.stderr.decode()


def holds(fact, what):
    global held
    if not fact:
        sys.exit(f'print: does not hold: {what}')
    held += 1


def must(due, answer, *sentences):
    """The exit status that is due, and that each of the sentences is on standard error."""
    status, _, said = answer
    holds(status == due, f'exit status {status} and not {due}; it said: {said}')
    for sentence in sentences:
        holds(sentence in said, f'“{sentence}” in: {said}')


def records(text):
    """The lines of the book below its head, and the sentence before the head if there is one."""
    holds(text.startswith('\ufeff'), 'a byte order mark')
    rows = list(csv.reader(io.StringIO(text[1:])))
    note = rows.pop(0)[0] if not rows[0][0].startswith('date ') else None
    names = [name.split(' ')[0] for name in rows[0]]
    return [dict(zip(names, row)) for row in rows[1:]], note


def whole_day(example, folder):
    """The example day without its faults: quarters that are missing or refused get the interval file of the first."""
    os.makedirs(folder)
    with open(os.path.join(example, '2026-10-31-q00.interval'), 'rb') as file:
        first = file.read()
    for quarter in range(96):
        with open(path(folder, quarter, 'interval'), 'wb') as file:
            file.write(first[:6] + bytes([quarter]) + first[7:])
    for quarter in (9, 10):
        for kind in ('interval', 'correction'):
            shutil.copy(path(example, quarter, kind), folder)
    for quarter in (STATED, CALM):
        shutil.copy(path(example, quarter, 'interval'), folder)
    for name in os.listdir(folder):     # not as if they were just arriving
        os.utime(os.path.join(folder, name), (1, 1))


def path(folder, quarter, kind):
    return os.path.join(folder, f'2026-10-31-q{quarter:02}.{kind}')


def change(file, edit):
    """Other bytes in a file, which seems as old as before."""
    with open(file, 'rb') as old:
        bytes_now = edit(old.read())
    with open(file, 'wb') as new:
        new.write(bytes_now)
    os.utime(file, (1, 1))


def whole(folder):
    answer = run(folder)
    must(READY, answer, '2026-10-31: Ready to book')
    rows, note = records(answer[1])
    holds(note is None, 'no sentence before the head')
    holds({row['quarter'] for row in rows} == {str(quarter) for quarter in range(96)}, 'all quarters')
    for quarter in range(96):
        holds(sum(int(row['net_fen']) for row in rows if row['quarter'] == str(quarter)) == 0, 'who pays pays who gets')
    names = ('baseline_percent', 'tier1_lowest_li', 'tier1_highest_li', 'tier2_lowest_li', 'tier2_highest_li')
    for row in rows:
        due = '45 150 300 350 650' if row['quarter'] == str(STATED) else '50 100 320 320 750'
        holds(' '.join(row[name] for name in names) == due, f'the terms that ruled: {row}')
        holds(row['averaged'] == ('1' if row['quarter'] == str(CALM) else '0'), f'whether the thermal average ruled: {row}')
    by_row = {(int(row['quarter']), row['row']): row for row in rows}
    between = by_row[STATED, '311']
    holds((between['paid_yuan'], between['compensation_fen']) == ('157.58', '0'), 'who pays under the stated terms')
    holds([by_row[CALM, id]['net_yuan'] for id in ('205', '402', '101')] == ['1681.46', '-884.84', '0.00'], 'who is paid and who pays by the average')
    must(READY, run(folder, '2026-10-31'), 'Ready to book')
    must(READY, run(folder, tongue='zh_CN.UTF-8'), '2026-10-31：可以入账')
    must(NOT_READY, run(folder, '2026-10-30'), '2026-10-30: Not ready to book: 96 missing (first: 00:00–00:15).')
    return answer[1]


def damaged(folder):
    correction = path(folder, 10, 'correction')
    name = os.path.basename(correction)
    for what, edit in {'mark': lambda old: b'X' + old[1:], 'one byte': lambda old: old[:1], 'empty': lambda old: b'',
                       'day': lambda old: old[:3] + bytes([old[3] ^ 1]) + old[4:], 'cut': lambda old: old[:-1]}.items():
        shutil.copy2(correction, folder + '.kept')
        change(correction, edit)
        answer = run(folder)
        must(NOT_READY, answer, 'Not ready to book', name, LAST)
        _, note = records(answer[1])
        holds(note and name in note and LAST in note, f'{what}: the book says so before its head')
        os.replace(folder + '.kept', correction)
    os.rename(correction, folder + '.kept')
    os.symlink(folder + '.kept', correction)
    must(NOT_READY, run(folder), name, LAST)
    os.remove(correction)
    os.rename(folder + '.kept', correction)


def stated_terms(folder):
    """A file whose terms are out of range, whose head is cut or has the mark of the other form leaves no figure."""
    interval = path(folder, STATED, 'interval')
    name = os.path.basename(interval)
    for edit in (lambda old: old[:15] + b'\x28' + old[16:], lambda old: old[:22] + b'\xff\xff' + old[24:], lambda old: old[:23],
                 lambda old: b'PH' + old[2:]):
        shutil.copy2(interval, folder + '.kept')
        change(interval, edit)
        answer = run(folder)
        must(NOT_READY, answer, '1 without a statement', name, LAST)
        holds(not any(row['quarter'] == str(STATED) for row in records(answer[1])[0]), 'a figure of a file that is refused')
        os.replace(folder + '.kept', interval)


def could_not_run(folder):
    must(COULD_NOT_RUN, run(os.path.join(folder, 'nowhere')))
    must(COULD_NOT_RUN, run(folder, 'yesterday'))
    must(COULD_NOT_RUN, run(folder, '2026-10-31', 'more'))
    must(COULD_NOT_RUN, run())
    with open('/dev/full', 'wb') as full:
        holds(subprocess.run([*PRINT, folder], stdout=full, stderr=subprocess.DEVNULL).returncode == COULD_NOT_RUN, 'a full disk')


def main():
    with tempfile.TemporaryDirectory() as around:
        folder = os.path.join(around, 'day')
        whole_day(EXAMPLE, folder)
        book = whole(folder)
        damaged(folder)
        stated_terms(folder)
        same = [line.rsplit(',', 1)[0] for line in book.splitlines()]    # but for the time
        holds([line.rsplit(',', 1)[0] for line in run(folder)[1].splitlines()] == same, 'put right again: the same book')
        could_not_run(folder)
        os.makedirs(os.path.join(around, 'empty'))
        must(NOT_READY, run(os.path.join(around, 'empty')), 'There is no interval file in this folder.')
        must(NOT_READY, run(EXAMPLE), '1 missing (first: 17:45–18:00) · 2 without a statement', '2026-10-31-q54.correction',
             'A statement of another time')
    print(f'print: {held} things hold')


PRINT, EXAMPLE = shlex.split(sys.argv[1]), sys.argv[2]
main()
