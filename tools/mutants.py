"""What tools/mutate and tools/mutate_definitions share: the order in which mutants are tried, and the copy of the repository they are tried in."""
import atexit
import os
import shutil
import signal
import subprocess
import tempfile


def rounds(rooms, chance):
    """The mutants of every room, in an order that goes over the rooms again and again: (room, mutant)."""
    for found in rooms.values():
        chance.shuffle(found)
    order, turn = [], 0
    while any(len(found) > turn for found in rooms.values()):
        keys = [key for key, found in rooms.items() if len(found) > turn]
        chance.shuffle(keys)
        order += [(key, rooms[key][turn]) for key in keys]
        turn += 1
    return order


def copied():
    """A fresh copy of the crates, outside the repository, since `rt ci` reads each source in it. What is proved of them `rt check` takes over."""
    folder = tempfile.mkdtemp(prefix='cironetop-mutants-')
    atexit.register(shutil.rmtree, folder, ignore_errors=True)
    for name in ('crates.txt', 'HANDLES'):
        if os.path.exists(name):
            shutil.copyfile(name, f'{folder}/{name}')
    shutil.copytree('crates', f'{folder}/crates', ignore=lambda at, names: ['out'] if os.path.dirname(at) == 'crates' else [])
    return folder


def checked(folder, crate, seconds, words=()):
    """The status of `rt check` in a crate of a copy, and what it said; no status where it is still at work after so many seconds."""
    how = {'stdout': subprocess.PIPE, 'stderr': subprocess.STDOUT, 'text': True, 'start_new_session': True}
    process = subprocess.Popen([*words, 'rt', 'check', '--jobs', '1'], cwd=f'{folder}/crates/{crate}', **how)
    try:
        said = process.communicate(timeout=seconds)[0]
    except subprocess.TimeoutExpired:
        os.killpg(process.pid, signal.SIGKILL)
        process.wait()
        return None, ''
    return process.returncode, said
