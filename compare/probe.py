"""Copies crates into a folder of their own, and builds exports over them: what slow, machine-code and the benches look at."""
import glob, os, shutil, subprocess, sys, time

TOP = os.path.dirname(os.path.dirname(os.path.abspath(__file__)))

def needed(lines, wanted):
    """The crates that are wanted, with all that they depend on, in the order of crates.txt."""
    found, left = set(), list(wanted)
    while left:
        name = left.pop()
        if name in lines and name not in found:
            found.add(name)
            left += lines[name].split()
    return [name for name in lines if name in found]

def copied(room, wanted, more=''):
    """Copies the sources and proofs of these crates and of those below them, with a crates.txt for them and a line more. Their
    names. What is proved here already is not proved again: rt begins with what checks of the same text kept on this machine."""
    whole = {line.split(':')[0].split()[0]: line for line in open(f'{TOP}/crates.txt') if ':' in line and not line.startswith('#')}
    crates = needed({name: line.split(':', 1)[1] for name, line in whole.items()}, wanted)
    with open(f'{room}/crates.txt', 'w') as out:
        for name in crates:
            for part in 'src', 'specs', 'proofs':
                if os.path.isdir(f'{TOP}/crates/{name}/{part}'):
                    shutil.copytree(f'{TOP}/crates/{name}/{part}', f'{room}/crates/{name}/{part}')
            out.write(whole[name])
        out.write(more.format(' '.join(crates)))
    return crates

def from_nothing(folder):
    """Has the next check of a copied crate prove it from nothing: its text is another than what checks here kept, by a last
    line, and what is kept in its own folder, which comes next, is nothing."""
    for root in glob.glob(f'{folder}/src/lib.rt') + glob.glob(f'{folder}/src/main.rt'):
        with open(root, 'a') as out:
            out.write(f'\n// {time.time_ns()}\n')
    os.makedirs(f'{folder}/out/incremental')

def build(room, source, wanted):
    """The archive of the exports in the file compare/SOURCE, which use the wanted crates, for plain x86-64, as rustc compiles."""
    copied(room, wanted, 'probe staticlib: {}\n')
    os.makedirs(f'{room}/crates/probe/src')
    shutil.copy(f'{TOP}/compare/{source}', f'{room}/crates/probe/src/lib.rt')
    built = subprocess.run(['rt', 'lib', '--cpu', 'x86-64'], cwd=f'{room}/crates/probe', capture_output=True, text=True)
    if built.returncode:
        sys.exit(built.stdout[-4000:] + built.stderr[-4000:])
    return f'{room}/crates/probe/out/libprobe.a'
