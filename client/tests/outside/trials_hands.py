"""Keys, pointer and what a screen reader is told."""
import re, time

import screen
from desk import DATE, DAY_SUM, OWED, QUARTER, ROW, SPAN, chinese, english, span, told_of_bar, told_of_no_bar

MISSING = 71        # the quarter of the example that has no file
FOCUSABLE = 11      # the number of the state in AT-SPI
CONTROLS = ('push button', 'combo box', 'table', 'chart', 'page tab list')
CHINESE_LETTER = re.compile('[\u4e00-\u9fff]')


def at_quarter(client, chart, quarter):
    """Chart and pane both say this quarter."""
    client.wait_until(lambda: client.description_of(chart).startswith(span(quarter)), f'the chart says {span(quarter)}')
    client.wait_until(lambda: f'{DATE} {span(quarter)}' in client.name_of(client.headline), f'the pane says {span(quarter)}')


def has_keys(client, role, name):
    """Waits until this one has the keys; a part of it counts."""
    def has():
        widget = client.focused()
        while widget is not None:
            if role in (None, widget.role) and widget.name == name:
                return True
            widget = widget.above
        return False
    client.wait_until(has, f'the keys go to {role or ""} {name!r}; they went to {client.focused()}')


# Keys.

def keys(desk):
    client = desk.open_day()
    chart = client.chart()
    client.press('ctrl+1')
    has_keys(client, 'chart', english('chart.name'))
    for key, quarter in (('Right', QUARTER + 1), ('Left', QUARTER), ('Page_Down', QUARTER + 4), ('Page_Up', QUARTER), ('Home', 0), ('Left', 0), ('End', 95),
                         ('Right', 95), ('ctrl+d', QUARTER)):
        client.press(key)
        at_quarter(client, chart, quarter)
    desk.tell('arrows, Page Up and Down, Home and End move the quarter in chart and pane, and stop at both ends')

    client.press('Return')
    has_keys(client, None, english('pane'))
    client.press('Escape')
    has_keys(client, 'chart', english('chart.name'))
    client.press('ctrl+2')
    has_keys(client, None, english('pane'))
    desk.tell('Enter and Ctrl+2 take the keys to the pane, Esc back to the chart')

    for key, table in (('ctrl+3', 'rows.table'), ('ctrl+4', 'files.table'), ('ctrl+3', 'rows.table')):
        client.press(key)
        has_keys(client, 'table', english(table))
    client.press('ctrl+4', 'ctrl+2')
    has_keys(client, None, english('pane'))
    client.press('ctrl+1')
    has_keys(client, 'chart', english('chart.name'))
    desk.tell('Ctrl+1 to Ctrl+4 go to chart, pane, all rows and files')

    read_again(desk, client)
    larger_letters(desk, client)
    help_opens(desk, client)


def read_again(desk, client):
    as_of = client.work_out_again()
    client.must_say(DAY_SUM)

    def rests():
        """Whether it tells the same time while several glances pass. A machine that is too busy for them has everything read again, but not for ever."""
        before = client.name_of(as_of)
        time.sleep(2)
        return before and client.name_of(as_of) == before
    client.wait_until(rests, 'nothing is worked out without a reason')
    desk.tell('F5 works everything out again, and nothing else does while nothing changes')


def larger_letters(desk, client):
    watched = client.find('page tab', english('tab.day')), client.answer, client.chart(), client.find(None, english('pane'))

    def places():
        return client.once(lambda: [client.extents(widget) for widget in watched], 'tab, sum, chart and pane')
    before = places()
    client.press('ctrl+plus', 'ctrl+plus')
    client.wait_until(lambda: places()[0][3] > before[0][3], 'larger letters')
    client.press('ctrl+minus', 'ctrl+0')
    client.wait_until(lambda: places() == before, f'letters as they were: tab, sum, chart and pane at {before}')
    desk.tell('Ctrl and + makes letters larger; with Ctrl+0 everything is where it was')


def help_opens(desk, client):
    def dialog():
        return client.find_all('dialog', english('help'))
    client.press('F1')
    client.wait_until(dialog, 'the help')
    heads, rows = client.table(english('key'))
    assert heads == [english('key'), english('does')] and [english('key.dearest'), english('key.dearest.does')] in rows, rows
    heads, rows = client.table(english('term'))
    assert [english('term.cap'), english('term.cap.means')] in rows, rows
    client.press('Escape')
    client.wait_until(lambda: not dialog(), 'the end of the help')
    desk.tell('F1 lists keys and terms, Esc closes it')


def plants(desk):
    """Finding a plant by its id or any part of its name."""
    client = desk.open_day()
    for typed, name in (('753', 'Changpo Wind Farm (row 753)'), ('Liugou', 'Liugou Solar Station (row 531)'),
                        ('captive', 'Nanling Captive Plant Unit 1 (row 402)'), ('640', english('row', 640)), ('101', ROW)):
        client.press('ctrl+f')
        client.type(typed)
        client.press('Return')
        client.must_begin(client.answer, f'{name} ')
        client.must_begin(client.headline, name)
    desk.tell('Ctrl+F finds a plant by its id or a part of its name')

    client.press('ctrl+f')
    client.type('nobody')
    client.press('Return')
    client.must_say(english('plant.unknown', 'nobody'))
    client.must_begin(client.answer, f'{ROW} ')
    desk.tell('an unknown name is told, and the plant stays')


def tongues(desk):
    client = desk.open_day()
    client.press('ctrl+l')
    client.must_say(chinese('why.pays'))
    client.find('page tab', chinese('tab.rows'))
    client.find('frame', chinese('title.of', 'day'))
    client.find('push button', chinese('open'))
    assert client.table(chinese('why.pays'))[0] == [chinese(key) for key in ('quarter.step', 'quarter.because', 'quarter.yuan')]
    patterns = list(english.patterns())
    for key, table in (('ctrl+1', 'day.table'), ('ctrl+3', 'rows.table'), ('ctrl+4', 'files.table')):
        client.press(key)
        client.find('table', chinese(table))
        left = [text for text in client.showing() if any(pattern.fullmatch(text) for pattern in patterns)]
        assert not left, f'English is left: {left[:5]}'
    client.press('ctrl+1')
    client.label('塬畔风电场', DAY_SUM)
    desk.tell('Ctrl+L puts title, tabs, heads and sentences into Chinese at once; no English sentence is left on any screen')

    client.press('ctrl+l')
    client.must_say(english('why.pays'))
    own = {english('language'), english('language.what')}
    left = [text for widget in client.widgets(hidden=False) for text in widget.texts() if CHINESE_LETTER.search(text) and text not in own]
    assert not left, f'Chinese is left: {left[:5]}'
    desk.tell('Ctrl+L again: all of it is English')
    stays_in_sight(desk, client)


def stays_in_sight(desk, client):
    """The chosen row of the table stays where it was, whatever is shown anew."""
    def place():
        return client.once(lambda: client.resting(client.cell(english('day.table'), QUARTER, 1)), 'the chosen row')[1]
    client.press('ctrl+1', 'Home', 'ctrl+d')
    client.must_say(f'{DATE} {SPAN}')
    before = place()

    def there_and_back():
        for tongue in (chinese, english):
            client.press('ctrl+l')
            client.must_say(tongue('why.pays'))
    for what, act in (('F5', client.work_out_again), ('Ctrl+L, twice', there_and_back)):
        act()
        client.wait_until(lambda: place() == before, f'after {what} the chosen row is at height {before} again')
        assert place() == before, f'after {what} the chosen row has left height {before}'
    desk.tell('the chosen row stays in sight when everything is read again and when the tongue changes')


def tab_order(desk):
    """Tab goes round through every control, and each that gets the keys has a name."""
    for screen_key, name in (('ctrl+1', 'day'), ('ctrl+3', 'rows'), ('ctrl+4', 'files')):
        client = desk.clients[0] if desk.clients else desk.open_day()
        client.press(screen_key)
        forth = tour(client, 'Tab')
        controls = [widget for widget in client.widgets(hidden=False, cells=False)
                    if widget.role in CONTROLS and widget.showing and widget.enabled and FOCUSABLE in widget.states]
        missed = [widget for widget in controls if widget.address not in forth]
        assert not missed, f'Tab does not reach {missed} on screen {name}; it reaches {list(forth.values())}'
        back = tour(client, 'shift+Tab')
        assert set(back) == set(forth), f'Tab and Shift+Tab differ: {list(forth.values())} and {list(back.values())}'
        desk.tell(f'Tab on screen {name}: round through {len(forth)} places and {len(controls)} controls, all with a name, Shift+Tab too')


def tour(client, key):
    """The widgets that get the keys, from here until it begins again."""
    places, had = {}, None
    for _ in range(60):
        widget = client.wait_until(lambda: moved_from(client, had), f'the keys go on after {list(places.values())}')
        had = widget.address
        # A cell stands for its table, and what has no name for what it is a part of: the line of a choice, the page of the pane.
        while widget.above and (widget.role in screen.ITEMS or not widget.name):
            widget = widget.above
        if widget.address in places:
            assert widget.address == next(iter(places)), f'it goes in a circle that leaves out its beginning: {list(places.values())}, then {widget}'
            return places
        assert widget.role != 'frame', f'no name: {client.focused()}'
        places[widget.address] = widget
        client.press(key)
    raise AssertionError(f'Tab comes to no end: {list(places.values())}')


def moved_from(client, had):
    """The widget that has the keys, once it is another than before."""
    widget = client.focused()
    return widget if widget and widget.address != had else None


# The pointer.

def pointer(desk):
    client = desk.open_day()
    chart = client.chart()
    client.click_bar(chart, QUARTER)
    at_quarter(client, chart, QUARTER)
    client.must_describe(chart, told_of_bar('chart.pays', SPAN, OWED))
    desk.tell(f'a click at the bar of {SPAN} chooses it')

    client.press('ctrl+1', 'Home')
    at_quarter(client, chart, 0)
    columns = client.table(english('day.table'), all_columns=True)[0]
    net = next(place for place, head in enumerate(columns) if head.startswith(english('figure.net')))
    client.click(client.cell(english('day.table'), 2, net))
    at_quarter(client, chart, 2)
    desk.tell('a click at a row of the table chooses its quarter')

    client.press('ctrl+d')
    at_quarter(client, chart, QUARTER)
    client.click(client.find('page tab', english('tab.rows')))
    client.find('table', english('rows.table'))
    quarter = cell_beside(client)[1]
    said = f'Qingdu Power Plant Unit 2 (row 206), {DATE} {span(quarter)}: '
    client.again_until(lambda: client.click(cell_beside(client)[0], times=2), lambda: client.name_of(client.headline).startswith(said),
                       f'{said!r}, the row and quarter of the cell')
    client.wait_until(lambda: client.description_of(chart).startswith(span(quarter)), 'the quarter in the chart too')
    desk.tell('a click at a tab opens all rows; a double click at a cell there opens its row and quarter')

    client.click(client.find('push button', english('language')))
    client.must_say(chinese('tab.rows'))
    desk.tell('a click at 中文 switches the tongue')


def cell_beside(client):
    """A cell of another row, one quarter beside the chosen one: at least on one side it is on the screen."""
    return client.once(lambda: cell_on_screen(client), 'a cell beside the chosen one')


def cell_on_screen(client):
    left, _, wide, _ = client.resting(client.find('table', english('rows.table')))
    for quarter in (QUARTER + 1, QUARTER - 1):
        cell = client.cell(english('rows.table'), 3, quarter)
        begins, _, takes, _ = client.resting(cell)
        if begins > left and begins + takes < left + wide and cell.showing:
            return cell, quarter
    raise LookupError(f'no cell beside the chosen one is on the screen\n{client.told()}')


# What a screen reader is told.

def readers(desk):
    client = desk.open_day()
    chart = client.chart()
    assert chart.role == 'chart' and chart.name == english('chart.name') and chart.description == told_of_bar('chart.pays', SPAN, OWED), chart.texts()
    client.press('ctrl+1')
    for key, said in (('Left', told_of_bar('chart.pays', span(QUARTER - 1), '4,479.89')), ('End', told_of_bar('chart.zero', span(95)))):
        client.press(key)
        client.must_describe(chart, said)
    client.press('End', *['Left'] * (95 - MISSING))
    client.must_describe(chart, told_of_no_bar(span(MISSING), english('state.missing')))
    client.press('ctrl+d')
    at_quarter(client, chart, QUARTER)
    desk.tell('the chart has its role, a name, and says quarter and amount, or why there is none, as the keys move')

    for key, names in (('ctrl+1', ('day.table', 'why.pays', 'quarter.line', 'quarter.head', 'quarter.files')), ('ctrl+3', ('rows.table',)),
                       ('ctrl+4', ('files.table',))):
        client.press(key)
        for name in names:
            heads, rows = client.table(english(name))
            assert heads and all(heads) and rows and all(any(row) for row in rows), f'table {english(name)!r}: heads {heads}, {len(rows)} rows'
        named(client)
    desk.tell('every table has heads and cells; every button, choice and table has a name, every choice a label')


def heard(desk):
    """What a screen reader is told while the keys stay in the chart: what it says now, and not that they went elsewhere."""
    with screen.Ears() as ears:
        client = desk.open_day()
        chart = client.chart()
        client.press('ctrl+1')
        has_keys(client, 'chart', chart.name)
        move(client, chart, 'Right', QUARTER + 1)
        ears.heard(client)
        # The second key comes after all that the first one has set off.
        move(client, chart, 'Left', QUARTER)
        move(client, chart, 'Left', QUARTER - 1)
        told = ears.heard(client)
    assert ('PropertyChange', 'accessible-description', 0, chart.address) in told, f'not told that the chart says something else: {told}'
    elsewhere = [client.again(screen.Widget(address, None)) for what, detail, number, address in told
                 if (what, detail, number) == ('StateChanged', 'focused', 1) and address != chart.address]
    assert not elsewhere, f'told that the keys went to {elsewhere}, and they are in the chart'
    assert 'qt.accessibility' not in desk.output(), desk.output()
    desk.tell('an arrow key in the chart: a screen reader is told that it says something else, and not that the keys went elsewhere')


def move(client, chart, key, quarter):
    client.press(key)
    at_quarter(client, chart, quarter)


def named(client):
    """Every control that shows has a name; a choice's name is what is chosen, so a label has to say what it is."""
    for widget in client.widgets(hidden=False, cells=False):
        if widget.role in ('push button', 'combo box', 'table', 'chart', 'page tab'):
            assert widget.name, f'no name: {widget} {widget.texts()}'
            assert '<' not in widget.description, f'the description is not plain: {widget.description!r}'
        if widget.role == 'combo box':
            labels = label_of(client, widget)
            assert labels, f'no label: {widget}'


def label_of(client, widget):
    """The names of what it is labelled by (relation 2)."""
    relations = client.ask([(*widget.address, screen.ACCESSIBLE, 'GetRelationSet', None)])[0] or []
    found = [screen.Widget(address, None) for kind, addresses in relations if kind == 2 for address in addresses]
    client.fill(found)
    return [label.name for label in found if label.name]
