"""A small workspace over some crates of this one, for benches that build a program of their own."""
import os, shutil, subprocess, sys

root = os.path.dirname(os.path.dirname(os.path.abspath(__file__)))


def libraries():
    """What each crate stands on, as crates.txt lists it."""
    with open(os.path.join(root, 'crates.txt')) as file:
        lines = [line.split('#')[0].strip() for line in file]
    return {name: below.split() for name, _, below in (line.partition(':') for line in lines if line)}


def crates_below(crate):
    """The crate and all crates of the workspace that it stands on, lowest first."""
    listed, found = libraries(), []

    def visit(name):
        for below in listed.get(name, []):
            visit(below)
        if name in listed and name not in found:
            found.append(name)

    visit(crate)
    return found


def built(top, crate, main, words=()):
    """Proves and builds, in the folder `top`, a program `bench` over a crate, and gives its path."""
    listed, names = libraries(), crates_below(crate)
    for name in names:
        shutil.copytree(os.path.join(root, 'crates', name), os.path.join(top, 'crates', name))
    folder = os.path.join(top, 'crates/bench')
    os.makedirs(os.path.join(folder, 'src'))
    with open(os.path.join(folder, 'src/main.rt'), 'w') as file:
        file.write(main)
    with open(os.path.join(top, 'crates.txt'), 'w') as file:
        file.write(''.join(f'{name}: {" ".join(listed[name])}\n' for name in names) + f'bench: {crate}\n')
    run = subprocess.run(['rt', 'run', *words], cwd=folder, capture_output=True, text=True)
    program = os.path.join(folder, 'out/bench')
    if not os.path.exists(program):
        sys.exit(run.stdout[-500:] + run.stderr[-500:])
    return program
