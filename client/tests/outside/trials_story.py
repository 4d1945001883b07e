"""The story for which the client was made: a person sees what a day costs, asks why, and a correction comes while they look. Then the same with
letters twice as large; a quarter under other terms; and one that the thermal average rules."""
import os

from desk import (BREATH_OWED, CALM, DATE, DAY_SUM, ISSUED_OWED, LATE_OWED, LATE_SUM, OWED, QUARTER, ROW, SPAN, STATED, STATED_OWED, chinese, english,
                  no_longer_valid, span, timed, told_of_bar)
from trials_changes import replace


def story(desk):
    client = desk.open_day()
    client.must_begin(client.answer, f'{ROW} pays {DAY_SUM} yuan ')
    desk.tell(f'the day opens and says what it costs: {DAY_SUM} yuan')

    client.press('ctrl+1', 'Home')
    client.must_say(f'{DATE} 00:00–00:15')
    client.press('ctrl+d')
    client.must_say(english('pays', ROW, f'{DATE} {SPAN}', OWED))
    desk.tell(f'Ctrl+D goes to the dearest quarter, which {english("pays", "", SPAN, OWED).lstrip(", ")}')

    heads, steps = client.table(english('why.pays'))
    assert heads == [english(key) for key in ('quarter.step', 'quarter.because', 'quarter.yuan')], heads
    assert len(steps) >= 5 and [step[0] for step in steps] == [str(place + 1) for place in range(len(steps))], steps
    assert all(step[1] for step in steps) and steps[-1][1:] == [english('result.pays', OWED), OWED], steps[-1]
    desk.tell(f'“{english("why.pays")}” has {len(steps)} steps, the last says {OWED}')
    see_correction(desk, client)


def see_correction(desk, client):
    """The time is that from the copy to the new sentence of the pane. Once that is there, the old amount stands nowhere but beside the new one, as void."""
    took = timed(desk.drop_late, lambda: LATE_OWED in client.name_of(client.headline), 'the corrected amount', client.told)
    client.nowhere(english('pays', ROW, f'{DATE} {SPAN}', OWED), DAY_SUM)
    desk.tell(f'a correction is dropped: the pane says {LATE_OWED} after {took:.2f} s')

    book = no_longer_valid(OWED, LATE_OWED)
    reasons = client.must_say(book).name
    meter = next((line for line in reasons.splitlines() if line.startswith(english('meter', ROW, '', '').split(':')[0])), None)
    assert meter == english('meter', ROW, '31,779', '25,423'), reasons
    heads, rows = client.table(english('quarter.compared'))
    assert heads == [english(f'quarter.{key}') for key in ('figure', 'before', 'now', 'change')], heads
    assert rows[-1] == [english('unit.of', english('figure.net'), english('unit.yuan')), f'−{OWED}', f'−{LATE_OWED}', '+1,126.60'], rows[-1]
    desk.tell(f'before and now stand side by side, with the reason: {meter}; {book}')

    client.must_begin(client.answer, f'{ROW} pays {LATE_SUM} yuan ')
    steps = client.table(english('why.pays'))[1]
    assert steps[-1][1:] == [english('result.pays', LATE_OWED), LATE_OWED], steps[-1]
    client.nowhere(DAY_SUM)
    desk.tell(f'the day comes to {LATE_SUM} now, the steps to {LATE_OWED}, and {DAY_SUM} is nowhere')
    assert client.close() == 0
    desk.tell('the window closes by its key, with status 0')


def told_terms(client):
    """What the table of the quarter as a whole says of its terms."""
    held = dict(client.table(english('quarter.head'))[1])
    limits = (english('unit.of', english(f'head.limits.{tier}'), english('unit.price')) for tier in (1, 2))
    return tuple(held[name] for name in (english('head.terms'), english('head.baseline'), *limits))


def terms(desk):
    """A quarter whose file states its terms; then the file is replaced by one with the same rows that states none."""
    client = desk.open_day()
    client.press('ctrl+1', *['Right'] * (STATED - QUARTER))
    when = f'{DATE} {span(STATED)}'
    client.must_say(english('pays', ROW, when, STATED_OWED))
    stated = (english('head.terms.stated'), '45', english('head.limits', '0.150', '0.300'), english('head.limits', '0.350', '0.650'))
    client.wait_until(lambda: told_terms(client) == stated, f'the terms {stated}')
    in_words = english('terms', '45', '0.150', '0.300', '0.350', '0.650')
    first = client.table(english('why.pays'))[1][0]
    assert first[1] == english('terms.moved', in_words), first
    noted = [row[0] for row in client.table(english('day.table'))[1] if row[-1].startswith(english('note.terms', '45'))]
    assert noted == [f'−{STATED_OWED}'], noted
    desk.tell(f'{span(STATED)} costs {STATED_OWED}, and its pane says under which terms: {in_words}')

    path = desk.path(f'{DATE}-q{STATED}.interval')
    with open(path, 'rb') as file:
        old = file.read()
    assert old[:2] == b'PG', old[:24]
    replace(path, b'PH' + old[2:15] + old[24:], desk.work)
    client.must_say(english('pays', ROW, when, ISSUED_OWED))
    issued = (english('head.terms.issued'), '50', english('head.limits', '0.100', '0.320'), english('head.limits', '0.320', '0.750'))
    client.wait_until(lambda: told_terms(client) == issued, f'the terms {issued}')
    client.nowhere(in_words, english('note.terms', '45'), STATED_OWED)
    desk.tell(f'replaced by one that states none: {ISSUED_OWED}, {english("head.terms.issued")}, and neither {STATED_OWED} nor the other terms are anywhere')


def average(desk):
    """A quarter that the thermal average rules; then the file is replaced by one with a kWh of wind, and the baseline rules again."""
    client = desk.open_day()
    client.press('ctrl+1', 'Page_Down', 'Page_Down', *['Right'] * (CALM - QUARTER - 8))
    when, ruled = f'{DATE} {span(CALM)}', english('quarter.averaged')
    client.must_say(english('zero', ROW, when))
    client.must_say(ruled)
    client.must_describe(client.chart(), told_of_bar('chart.by-average', english('chart.zero', span(CALM))))
    asked = english('head.averaged')
    client.wait_until(lambda: dict(client.table(english('quarter.head'))[1])[asked] == english('head.averaged.yes'), 'that the average ruled')
    steps = client.table(english('why.zero'))[1]
    assert [step[1] for step in steps[:2]] == [english('average.why', '30,000', '50'), english('average.all', '290,135', '2,600', '44.636…')], steps
    noted = [row[0] for row in client.table(english('day.table'))[1] if row[-1].startswith(english('note.averaged'))]
    assert noted == ['0.00'], noted
    desk.tell(f'{span(CALM)} has neither wind nor sun, and pane, steps, chart and table say that the thermal average ruled')

    path = desk.path(f'{DATE}-q{CALM}.interval')
    with open(path, 'rb') as file:
        old = file.read()
    replace(path, old[:15 + 7] + bytes([1]) + old[15 + 8:], desk.work)
    client.must_say(english('pays', ROW, when, BREATH_OWED))
    client.wait_until(lambda: dict(client.table(english('quarter.head'))[1])[asked] == english('head.averaged.no'), 'that the baseline ruled')
    client.nowhere(ruled, english('chart.averaged'), english('note.averaged'), english('average.why', '30,000', '50'))
    desk.tell(f'replaced by one with a kWh of wind: {BREATH_OWED}, and nothing says any more that the average ruled')


def twice_as_large(desk):
    """On a screen of 1000 × 660 with letters twice as large, everything that the story needs is on the screen."""
    client = desk.open_day()
    wide, high = (int(size) // int(os.environ['QT_SCALE_FACTOR']) for size in os.environ['DISPLAY_SIZE'].split('x'))
    client.picture(os.path.join(desk.given.pictures, 'twice-as-large-en.png'))
    assert client.table(english('why.pays'))[1][-1][-1] == OWED
    client.press('ctrl+l')
    client.must_say(chinese('why.pays'))
    client.picture(os.path.join(desk.given.pictures, 'twice-as-large-zh.png'))
    client.press('ctrl+l')
    # Qt tells places and sizes without the factor.
    for widget in (client.answer, client.headline, client.label(english('why.pays')), client.chart(), client.find('push button', english('language'))):
        left, top, across, down = client.extents(widget)
        is_on = 0 <= left and left + across <= wide and 0 <= top and top + down <= high
        assert is_on, f'{widget} takes {left} to {left + across} across and {top} to {top + down} down; the screen has {wide} × {high}'
    desk.tell(f'letters twice as large on a screen of {wide} × {high}: sum, chart, quarter, steps and the last button are on it; pictures in both tongues')
