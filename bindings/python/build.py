#!/usr/bin/env python3
"""build.py [ARCHIVE]: make the shared library that the package loads, cironetop/libcironetop.so, from the static one.

ARCHIVE is libhost.a; without it CIRONETOP_HOST names it, or tools/library the one of this machine. CC names the C compiler, else cc.
"""
import os
import subprocess
import sys
from pathlib import Path

HERE = Path(__file__).resolve().parent


def archive() -> str:
    if len(sys.argv) > 1:
        return sys.argv[1]
    found = subprocess.run([HERE / '../../tools/library', '--path'], stdout=subprocess.PIPE, text=True, check=True)
    return found.stdout.strip()


def main() -> None:
    source = archive()
    if not os.path.isfile(source):
        sys.exit(f'build.py: there is no archive at {source}: tools/library makes it')
    target = HERE / 'cironetop' / 'libcironetop.so'
    part = target.with_suffix('.so.part')
    words = [os.environ.get('CC', 'cc'), '-shared', '-o', str(part), '-Wl,--no-undefined', '-Wl,--whole-archive', source, '-Wl,--no-whole-archive']
    if subprocess.run(words).returncode:
        sys.exit('build.py: the shared library could not be made')
    # A program that has the old file open keeps it whole.
    os.replace(part, target)
    print(target)


if __name__ == '__main__':
    main()
