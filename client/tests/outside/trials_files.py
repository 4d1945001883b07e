"""What the client writes: exports that a person asks for, and settings. What it makes of files that nobody wrote for it."""
import os, random, re, socket

from desk import DAY_SUM, LATE_OWED, MONEY, OWED, as_anybody, english

MARK = b'\xef\xbb\xbf'
LEFT_SUM = '39,989.42'        # of the day without its dearest quarter


def export_to(client, path):
    """Ctrl+E, a path, Return."""
    def dialog():
        return client.find_all('dialog') or client.find_all('file chooser')

    def in_name():
        """The field for the name, once it has the keys: until then they go elsewhere."""
        widget = client.focused()
        return widget if widget and widget.role == 'text' and widget.above else None
    client.press('ctrl+e')
    client.wait_until(dialog, 'the dialog')
    field = client.wait_until(in_name, 'the keys go to the name of the file')
    client.press('ctrl+a')
    client.type(path)
    client.wait_until(lambda: client.again(field).text == path, f'the name is {path}')
    client.press('Return')
    client.wait_until(lambda: not dialog(), 'the end of the dialog')


def export(desk):
    client = desk.open_day()
    for key, name, held in (('ctrl+1', 'day.csv', b'563282'), ('ctrl+3', 'rows.csv', b'563282'), ('ctrl+4', 'files.csv', b'q54.correction')):
        client.press(key)
        path = os.path.join(desk.out, name)
        export_to(client, path)
        client.must_say(english('export.done', path))
        with open(path, 'rb') as file:
            written = file.read()
        assert written.startswith(MARK) and written.endswith(b'\r\n') and held in written, written[:200]
        lines = written.decode('utf-8-sig').split('\r\n')
        assert not any('\n' in line for line in lines), 'lines end in different ways'
    assert sorted(os.listdir(desk.out)) == ['day.csv', 'files.csv', 'rows.csv'], os.listdir(desk.out)
    desk.tell(f'Ctrl+E writes day, rows and files as CSV with a mark, and says “{english("export.done", "").split(":")[0]}: ..”')

    client.press('ctrl+1')
    export_to(client, desk.path('day.csv'))
    client.must_say(english('export.within'))
    assert not os.path.exists(desk.path('day.csv'))
    export_to(client, os.path.join(desk.work, 'nowhere', 'day.csv'))
    client.must_say(english('export.failed', '', '').split(':')[0])
    desk.tell('nothing is written into the folder that is shown, and a failure is told')
    client.press('ctrl+e')
    client.wait_until(lambda: client.find_all('dialog'), 'the dialog')
    client.press('Escape')
    client.wait_until(lambda: not client.find_all('dialog'), 'the end of the dialog')


# What it writes.

OPENING = ('open', 'openat')
CALLS = (*OPENING, 'creat', 'rename', 'renameat', 'renameat2', 'unlink', 'unlinkat', 'mkdir', 'mkdirat', 'rmdir', 'truncate', 'link', 'linkat', 'symlink',
         'symlinkat', 'mknod', 'mknodat', 'chmod', 'fchmodat', 'utimensat')
CALL = re.compile(r'^\d+ +(\w+)\((.*)')
PATH = re.compile(r'"((?:[^"\\]|\\.)*)"')
QUIET = ('/dev/', '/proc/', '/sys/', '/memfd:')


def touched(trace):
    """The paths that were opened for writing, made, moved or removed. Asking for a folder that is there already changes nothing."""
    paths = set()
    with open(trace, errors='replace') as lines:
        for line in lines:
            call = CALL.match(line)
            reads = call and call[1] in OPENING and not re.search('O_WRONLY|O_RDWR|O_CREAT|O_TRUNC|O_TMPFILE', call[2])
            if call and not reads and '= -1 EEXIST' not in call[2]:
                paths.update(PATH.findall(call[2]))
    return paths


def writes_nothing(desk):
    """A session under strace, with readings, changes and one export."""
    trace = os.path.join(desk.work, 'trace')
    calls = ','.join(f'?{call}' for call in CALLS)  # not every machine has all of them
    client = desk.open_day(under=('strace', '-f', '-qq', '--signal=none', '-s', '4096', '-e', f'trace={calls}', '-o', trace))
    client.press('ctrl+1', 'Home', 'End', 'ctrl+d', 'ctrl+3', 'ctrl+4', 'ctrl+l', 'ctrl+l', 'ctrl+plus', 'ctrl+0', 'ctrl+1')
    desk.drop_late()
    client.wait_until(lambda: LATE_OWED in client.name_of(client.headline), 'the corrected amount')
    os.remove(desk.correction)
    client.wait_until(lambda: OWED in client.name_of(client.headline), 'the amount without it')
    client.work_out_again()
    path = os.path.join(desk.out, 'day.csv')
    export_to(client, path)
    client.must_say(english('export.done', path))
    client.close()

    paths = touched(trace)
    assert any(path.startswith(desk.config) for path in paths), f'the trace holds nothing: {sorted(paths)}'
    allowed = (f'{desk.config}/', f'{desk.out}/', f'{desk.work}/cache/', *QUIET)
    others = sorted(path for path in paths if not (path in (desk.config, desk.out) or path.startswith(allowed)))
    assert not others, f'written or changed: {others}'
    assert os.listdir(desk.out) == ['day.csv'], os.listdir(desk.out)
    desk.tell(f'under strace: of {len(paths)} paths that were written none lies outside settings, export and the cache of fonts')
    kept_settings(desk)
    said = [line for line in desk.output().splitlines() if MONEY.search(line)]
    assert not said, f'its output holds amounts: {said}'
    desk.tell('its output holds no amount')


def kept_settings(desk):
    """Folder, tongue, plant, letters and place; no figure."""
    held = {}
    for folder, _, names in os.walk(desk.config):
        for name in names:
            with open(os.path.join(folder, name), encoding='utf-8') as file:
                held[name] = file.read()
    kept = re.findall(r'^(\w+)=', held['client.conf'], re.MULTILINE)
    assert set(kept) <= {'folder', 'tongue', 'plant', 'percent', 'place'}, kept
    assert not any(amount in text for text in held.values() for amount in (OWED, LATE_OWED, DAY_SUM, '563282', '450622')), held
    desk.tell(f'the settings hold {", ".join(sorted(kept))} and no figure')


# Bad input.

def make_unwelcome(folder, interval):
    """Fills a folder with what nobody would send on purpose. The socket lives as long as what is handed back."""
    draw = random.Random(3)
    files = {
        b'random': draw.randbytes(5_000), b'a\xff\xfe': b'PX', b'new\nline': b'', 'right\u202eleft\u200f'.encode(): b'PG', b'<b>bold<img src=x>': b'PK',
        b'-rf': b'PH', b'plants.csv': b'\xff\xfe,,,\n101,' + b'x' * 70_000, b'zeros': b'PH' + bytes(13),
        b'one.interval': interval, b'two.interval': interval[:-1] + b'\x01',
    }
    for place in range(40):
        mark = draw.choice([b'PH', b'PG', b'PK', b'PS', b'PT', b'PW'])
        files[b'drawn-%02d' % place] = mark + interval[2:7] + draw.randbytes(draw.randrange(400))
    where = os.fsencode(folder)
    for name, content in files.items():
        with open(os.path.join(where, name), 'wb') as file:
            file.write(content)
    with open(os.path.join(where, b'huge'), 'wb') as file:
        file.write(b'PH')
        file.truncate(1 << 30)
    os.symlink(os.path.join(where, b'one.interval'), os.path.join(where, b'link'))
    os.symlink(where, os.path.join(where, b'loop'))
    os.mkfifo(os.path.join(where, b'pipe'))
    for name in (b'shut', b'deep', b'deep/deeper'):
        os.mkdir(os.path.join(where, name))
    with open(os.path.join(where, b'shut', b'within'), 'wb') as file:
        file.write(interval)
    with open(os.path.join(where, b'unreadable'), 'wb') as file:
        file.write(interval)
    listener = socket.socket(socket.AF_UNIX)
    listener.bind(os.path.join(where, b'socket'))
    os.chmod(os.path.join(where, b'shut'), 0)
    os.chmod(os.path.join(where, b'unreadable'), 0)
    return listener


def bad_input(desk):
    folder = os.path.join(desk.work, 'unwelcome')
    os.mkdir(folder)
    with open(desk.interval, 'rb') as file:
        interval = file.read()
    with make_unwelcome(folder, interval):
        try_unwelcome(desk, folder)


def try_unwelcome(desk, folder):
    for path in os.scandir(os.fsencode(folder)):
        if path.is_file(follow_symlinks=False):
            desk.age(path.path)
    client = desk.start(folder, under=as_anybody())
    client.press('ctrl+4')
    client.wait_until(lambda: client.find_all('table', english('files.table')), 'the list of files')
    heads, rows = client.table(english('files.table'))
    fault, name, says, advice = (heads.index(english(f'files.{key}')) for key in ('fault', 'name', 'says', 'advice'))
    listed = {row[name]: row for row in rows}
    unread = {'link': 'link', 'loop': 'link', 'pipe': 'pipe', 'socket': 'socket', 'shut': 'permission', 'unreadable': 'permission', 'deep/deeper': 'folder'}
    sentences = {file: english('file.unread', english(f'unread.{reason}')) for file, reason in unread.items()}
    for file, sentence in {**sentences, 'new\\nline': english('file.empty'), 'random': english('file.unknown')}.items():
        assert file in listed and listed[file][says] == sentence, f'{file}: {listed.get(file)} and not {sentence!r}\n{sorted(listed)}'
    assert len(rows) == 58 and all(row[says] for row in rows), f'{len(rows)} files: {rows}'
    faulty = [row for row in rows if row[fault]]
    assert len(faulty) > 30 and all(row[advice] for row in faulty), [row for row in faulty if not row[advice]]
    assert not any(re.search('[\n\u202e\u200f]', text) for row in rows for text in row[:name + 1]), 'a name with letters that lead astray'
    client.no_money()
    desk.tell(f'{len(rows)} unwelcome files, names of any bytes, links, pipe, socket, 1 GB, no permission: each has a sentence, {len(faulty)} an advice, '
              'and no amount is made up')

    client.press('ctrl+1', 'ctrl+2', 'ctrl+3', 'ctrl+l', 'ctrl+l', 'F5', 'ctrl+1')
    for name in os.listdir(desk.day):
        if name != 'plants.csv':
            os.link(desk.path(name), os.path.join(folder, name))
    client.label(LEFT_SUM)
    client.nowhere(OWED, DAY_SUM)
    desk.tell(f'beside a whole day they take away only their own quarter: {LEFT_SUM} is left of {DAY_SUM}')
    assert client.close() == 0, 'it did not end as it should'


def bad_starts(desk):
    """Started on what is no folder, or on nothing: a sentence, and no key brings the window to its end."""
    plain, shut = os.path.join(desk.work, 'plain'), os.path.join(desk.work, 'shut')
    with open(plain, 'w'):
        pass
    os.mkdir(shut, 0)
    starts = [((), 'nothing', english('welcome'))]
    for name, reason in (('nowhere', 'absent'), ('plain', 'no-folder'), ('shut', 'permission')):
        starts.append(((os.path.join(desk.work, name),), name, english('gone', english(f'unread.{reason}'))))
    for arguments, name, said in starts:
        client = desk.start(*arguments, under=as_anybody())
        client.must_say(said)
        # F5 comes last: Esc stops what is being read, and a folder that is not there is tried over and over.
        client.press('ctrl+e', 'ctrl+d', 'ctrl+1', 'ctrl+2', 'ctrl+3', 'ctrl+4', 'Escape', 'ctrl+l', 'ctrl+l', 'F5')
        client.must_say(said)
        client.no_money()
        assert client.close() == 0
        desk.tell(f'started on {name}: {said}')
    first_start(desk)


def first_start(desk):
    """Without a folder the example is offered; the folder is remembered, and shown again at the next start."""
    client = desk.start('--example', desk.day, under=('env', f'XDG_CONFIG_HOME={desk.work}/first'))
    # The window may still be moved to its place when its button is found.
    client.again_until(lambda: client.click(client.find('push button', english('example'))),
                       lambda: not client.find_all('push button', english('example')), 'the example day opens')
    client.label(DAY_SUM)
    client.close()
    client = desk.start(under=('env', f'XDG_CONFIG_HOME={desk.work}/first'))
    client.label(DAY_SUM)
    desk.tell('the first start offers the example day, the next one opens it again')
