"""Copies of a crate and of those below it, for checks that leave the tree as it is.

A copy stands in a folder of temporary files, since rt ci refuses .rt and .antt files anywhere but in the crates. A check there begins with what
checks in this tree kept."""
import contextlib, os, shutil, subprocess, tempfile

ROOT = os.path.dirname(os.path.dirname(os.path.abspath(__file__)))


class Missing(Exception):
    pass


def listed():
    """The lines of crates.txt, lowest first, by the crate's name."""
    lines = {}
    for line in open(os.path.join(ROOT, 'crates.txt'), encoding='utf-8'):
        line = line.split('#')[0].strip()
        if line:
            lines[line.split(':')[0].split()[0]] = line
    return lines


@contextlib.contextmanager
def copied(crate):
    """Gives the top of a copy of the crate and of the crates that it may use."""
    lines = listed()
    if crate not in lines:
        raise Missing(f'crates.txt has no crate {crate}')
    if not shutil.which('rt'):
        raise Missing('no Rattle kit: rt is missing')
    names = [n for n in lines if n == crate or n in lines[crate].split(':')[1].split()]
    with tempfile.TemporaryDirectory(prefix='hookup-') as top:
        for name in names:
            for part in ('src', 'specs', 'proofs'):
                if os.path.isdir(os.path.join(ROOT, 'crates', name, part)):
                    shutil.copytree(os.path.join(ROOT, 'crates', name, part), os.path.join(top, 'crates', name, part))
        with open(os.path.join(top, 'crates.txt'), 'w', encoding='utf-8') as out:
            out.write(''.join(lines[n] + '\n' for n in names))
        shutil.copy(os.path.join(ROOT, 'HANDLES'), top)
        yield top


def rt(top, crate, *words):
    """Runs rt in the crate's folder of a copy; gives its status and what it said."""
    ran = subprocess.run(['rt', *words], cwd=os.path.join(top, 'crates', crate), stdin=subprocess.DEVNULL, stdout=subprocess.PIPE,
                         stderr=subprocess.STDOUT, text=True, errors='replace')
    return ran.returncode, ran.stdout
