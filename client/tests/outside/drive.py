"""Try the client as a person does, on a real screen with real keys and pointer, reading it as a screen reader does.

    client/tools/display /usr/bin/python3 client/tests/outside/drive.py PROGRAM EXAMPLE LATE [TRIAL...]

PROGRAM is wheatrudder-client, EXAMPLE the example day, LATE the folder of its late correction. Each line `outside: ..` is one thing that was tried
and holds. If one does not, the text says what was showing, a picture lies in OUTSIDE_PICTURES (a new folder if that is not set), the other trials
go on, and the exit status is 1.
"""
import argparse, os, subprocess, sys, tempfile, time, traceback

sys.dont_write_bytecode = True     # nothing is left beside the sources
import screen
from desk import HERE, Desk
from trials_changes import bursts, changes, disturbed, refused_correction
from trials_files import bad_input, bad_starts, export, writes_nothing
from trials_hands import heard, keys, plants, pointer, readers, tab_order, tongues
from trials_story import average, story, terms, twice_as_large

TRIALS = (story, terms, average, keys, plants, tongues, tab_order, pointer, readers, heard, changes, bursts, disturbed, refused_correction, export, writes_nothing,
          bad_input, bad_starts, twice_as_large)
# A trial that needs another screen than the one this runs on.
SCREENS = {twice_as_large: {'DISPLAY_SIZE': '2000x1320', 'QT_SCALE_FACTOR': '2'}}


def given():
    parser = argparse.ArgumentParser(description='Try the client from outside.')
    parser.add_argument('program')
    parser.add_argument('example')
    parser.add_argument('late')
    parser.add_argument('trials', nargs='*', metavar='TRIAL', help=', '.join(trial.__name__ for trial in TRIALS))
    told = parser.parse_args()
    told.program, told.example, told.late = map(os.path.abspath, (told.program, told.example, told.late))
    told.pictures = os.environ.get('OUTSIDE_PICTURES') or tempfile.mkdtemp(prefix='outside-pictures-')
    os.makedirs(told.pictures, exist_ok=True)
    told.told = 0
    return told


def try_on_screen_of_its_own(trial, told):
    """The same program again, on another screen; what it tells counts here."""
    display = os.path.join(HERE, '..', '..', 'tools', 'display')
    argv = [display, sys.executable, os.path.join(HERE, 'drive.py'), told.program, told.example, told.late, trial.__name__]
    settings = {**SCREENS[trial], 'OUTSIDE_PICTURES': told.pictures, 'OUTSIDE_SCREEN': trial.__name__}
    run = subprocess.run(argv, env={**os.environ, **settings}, stdout=subprocess.PIPE, timeout=10 * screen.LIMIT, text=True)
    lines = run.stdout.splitlines()
    if run.returncode != 0:
        raise AssertionError('on a screen of its own:\n' + '\n'.join(lines))
    for line in lines[:-1]:     # the last one is the sum
        told.told += 1
        print(line, flush=True)


def try_one(trial, told):
    if trial in SCREENS and os.environ.get('OUTSIDE_SCREEN') != trial.__name__:
        return try_on_screen_of_its_own(trial, told)
    with Desk(told, trial.__name__) as desk:
        trial(desk)


def main():
    told, failed, begun = given(), [], time.monotonic()
    names = [trial.__name__ for trial in TRIALS]
    unknown = set(told.trials) - set(names)
    if unknown:
        sys.exit(f'outside: no trial is called {", ".join(sorted(unknown))}; there are {", ".join(names)}')
    for trial in TRIALS:
        if told.trials and trial.__name__ not in told.trials:
            continue
        try:
            try_one(trial, told)
        except Exception as error:  # whatever it is: the others are tried as well
            failed.append(trial.__name__)
            where = ' < '.join(f'{frame.name}:{frame.lineno}' for frame in reversed(traceback.extract_tb(error.__traceback__)[-3:]))
            print(f'outside: FAILED: {trial.__name__}: {error or type(error).__name__} ({where})', flush=True)
    of_failed = f'; failed: {", ".join(failed)}' if failed else ''
    print(f'outside: {told.told} things hold, {time.monotonic() - begun:.0f} s{of_failed}', flush=True)
    sys.exit(1 if failed else 0)


if __name__ == '__main__':
    main()
