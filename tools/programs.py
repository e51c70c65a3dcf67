"""The proved programs that the tools run: `manual` and `load`."""
import os
import subprocess
import sys

ROOT = os.path.dirname(os.path.dirname(os.path.abspath(__file__)))
CRATES = os.path.join(ROOT, 'crates')


def say(name, text):
    print(f'{name}: {text}', file=sys.stderr)


def program_path(name):
    return os.path.join(CRATES, name, 'out', name)


def last_change():
    """When the sources were last changed, by the times of crates.txt and of each file and folder below crates/; what rt makes, in the
    crates' folders out/, is none."""
    paths = [os.path.join(ROOT, 'crates.txt')]
    for here, folders, names in os.walk(CRATES):
        if os.path.dirname(here) == CRATES:
            folders[:] = [folder for folder in folders if folder != 'out']
        paths += [here] + [os.path.join(here, file) for file in names]
    return max((os.lstat(path).st_mtime_ns for path in paths if os.path.lexists(path)), default=0)


def make_out():
    """Makes each crate's out/, so that no crate's folder changes when rt makes it."""
    for crate in os.listdir(CRATES):
        if os.path.isdir(os.path.join(CRATES, crate)):
            os.makedirs(os.path.join(CRATES, crate, 'out'), exist_ok=True)


def ready(name):
    """Is the program there and as new as its sources, or can it be built."""
    program = program_path(name)
    if not os.path.exists(program):
        say(name, f'the program is not there yet; proving and building it with `rt run` in crates/{name}')
    elif os.stat(program).st_mtime_ns < last_change():
        say(name, f'the program is older than its sources; proving and building it with `rt run` in crates/{name}')
    else:
        return True
    try:
        make_out()
        changed = last_change()
        # It also runs the program, on no input; rt's own lines go to standard error.
        checked = subprocess.run(['rt', 'run'], cwd=os.path.join(CRATES, name), stdin=subprocess.DEVNULL, stdout=subprocess.DEVNULL, check=False)
    except OSError as e:
        say(name, f'rt cannot be run: {e.strerror}')
        return False
    if checked.returncode != 0 or not os.path.exists(program):
        say(name, 'the program is not proved and built')
        return False
    # Where only the times of the sources have changed, rt does not build anew. What changes during the check is newer than this.
    os.utime(program, ns=(changed, changed))
    return True


def output(name, given):
    """What the program writes for this input; none where it does not end well."""
    ran = subprocess.run([program_path(name)], input=given, stdout=subprocess.PIPE, check=False)
    if ran.returncode != 0:
        say(name, f'the program ended with status {ran.returncode}')
        return None
    return ran.stdout
