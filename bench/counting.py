"""What the comparisons share: the processor's instructions of a run, by callgrind; the least time of some runs; and the
program without proofs of a crate."""
import contextlib
import importlib.machinery
import importlib.util
import os
import pathlib
import re
import resource
import shutil
import subprocess
import sys
import tempfile

TOP = pathlib.Path(__file__).resolve().parents[1]
VALGRIND = ['valgrind', '--tool=callgrind', '--callgrind-out-file=/dev/null']


def counted(words, text):
    """Returns how many instructions a run takes, and what it prints. It must end with status 0."""
    done = subprocess.run([*VALGRIND, *map(str, words)], input=text, capture_output=True, check=True)
    return int(re.search(rb'Collected : (\d+)', done.stderr)[1]), done.stdout


def spent():
    """Returns the user and system time of all runs so far, in seconds."""
    usage = resource.getrusage(resource.RUSAGE_CHILDREN)
    return usage.ru_utime + usage.ru_stime


def least(words, text, runs):
    """Returns the least user and system time of some runs, in seconds. Each must end with status 0."""
    times = []
    for _ in range(runs):
        before = spent()
        subprocess.run([*map(str, words)], input=text, stdout=subprocess.DEVNULL, stderr=subprocess.DEVNULL, check=True)
        times.append(spent() - before)
    return min(times)


def build_script():
    """Returns scripts/build/program as a module."""
    sys.dont_write_bytecode = True
    loader = importlib.machinery.SourceFileLoader('build', f'{TOP}/scripts/build/program')
    made = importlib.util.module_from_spec(importlib.util.spec_from_loader('build', loader))
    loader.exec_module(made)
    return made


@contextlib.contextmanager
def unproved(name, main, uses):
    """Gives a program of this file over these crates, built without proofs."""
    with tempfile.TemporaryDirectory() as top:
        for crate in os.listdir(TOP / 'crates'):
            if (TOP / 'crates' / crate / 'src').is_dir():
                shutil.copytree(TOP / 'crates' / crate / 'src', f'{top}/crates/{crate}/src')
        os.makedirs(f'{top}/crates/{name}/src')
        shutil.copy(main, f'{top}/crates/{name}/src/main.rt')
        rows = (TOP / 'crates.txt').read_text()
        pathlib.Path(f'{top}/crates.txt').write_text(f'{rows}\n{name}: {" ".join(uses)}\n')
        os.makedirs(f'{top}/made')
        with open(f'{top}/log', 'w+', encoding='utf-8') as log:
            here = os.getcwd()
            is_built = build_script().compiled(f'{top}/made', log, top=top, name=name)
            os.chdir(here)
            if not is_built:
                log.seek(0)
                sys.exit(f'{name} is not built: {log.read()[-2000:]}')
        yield f'{top}/made/{name}'
