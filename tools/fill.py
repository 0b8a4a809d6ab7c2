"""Fill the proof files that `rt check --start` wrote, from a script that imports this file and runs at the top of the repository:

    fill('runs', 'copy_run', 'A header of one or two lines.', 'use ..', invariants={'loop-i': '(l.x ≤ l.n) × ..'}, measures={'loop-i': 'l.n - l.x'},
         answers={'loop-i-init': '(omega arith, stamp_none _ _ _)'}, default='omega arith', unfolding={'returns': 'round2'})

Every answer that is still a hole gets `default`. The files as they were begun are kept under target/scaffold, so that a run can be repeated.
"""
import os
import re


def kept(crate, function, name):
    path = f'crates/{crate}/proofs/{function}/{name}.antt'
    copy = f'target/scaffold/{crate}.{function.replace("/", ".")}.{name}'
    os.makedirs('target/scaffold', exist_ok=True)
    if not os.path.exists(copy) and os.path.exists(path):
        with open(path, encoding='utf-8') as source, open(copy, 'w', encoding='utf-8') as target:
            target.write(source.read())
    if not os.path.exists(copy):
        return path, ''
    with open(copy, encoding='utf-8') as file:
        return path, file.read()


def answered(text, left, default):
    """The text with an answer in the place of each hole or proposal that `left` names, which it is then taken from, and the default elsewhere."""

    def answer(m):
        name, binder, old = m.groups()
        if name in left:
            return f'{name}{binder} = {left.pop(name)}'
        return f'{name}{binder} = {default}' if old == '?' and default else m.group(0)

    return re.sub(r'(?m)^(\S+)((?: [\w₀-₉\'-]+)*) = (.*)$', answer, text)


def fill(crate, function, header='', uses='', invariants=None, measures=None, answers=None, default=None, helpers='', unfolding=None):
    loops = {f'invariant-{loop}': text for loop, text in (invariants or {}).items()}
    loops.update((f'decreases-{loop}', text) for loop, text in (measures or {}).items())
    for name, left, other in (('Invariants', loops, None), ('Answers', dict(answers or {}), default)):
        path, text = kept(crate, function, name)
        text = answered(re.sub(r'(?m)^-- src/.*\n', '', text), left, other)
        if left:
            print('no such goal:', function, sorted(left))
        if name == 'Answers':
            for goal, names in (unfolding or {}).items():
                text = re.sub(r'(?m)^((?:abbrev )?pub %s : .*)$' % re.escape(goal), lambda m: f'{m.group(1)}\nunfolding {names}', text)
            if helpers:
                place = [m.end() for m in re.finditer(r'(?m)^use .*\n', text)][-1]
                text = f'{text[:place]}\n{helpers.strip()}\n{text[place:]}'
        if text:
            with open(path, 'w', encoding='utf-8') as file:
                file.write('\n'.join(part.strip() for part in (header, uses) if part.strip()) + '\n' + text)
