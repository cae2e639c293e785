#!/usr/bin/env python3
"""The commands plot_hub and show_book as bin/ starts them: for each case exit status, standard output and standard error, byte for byte.

    tests/command.py TREE REFERENCE HISTORY BENCH_INPUTS SEED

TREE is a folder like the repository's, with bin/, VERSION, KIT, crates.txt and the programs in target/bin. Every case is run with each
shell that the machine has of dash and bash, as POSIX shells. Exit status 0: all is as expected.
"""
import os
import re
import shutil
import signal
import socket
import subprocess
import sys
import tempfile
import time

HERE = os.path.dirname(os.path.abspath(__file__))
sys.path[:0] = [HERE, os.path.join(HERE, 'book')]
import hints  # noqa: E402
import model  # noqa: E402
import show  # noqa: E402

TREE, REFERENCE, HISTORY, BENCH_INPUTS, SEED = sys.argv[1:]
NAMES = ['plot_hub', 'show_book']
SHELLS = [words for words in (['dash'], ['bash', '--posix']) if shutil.which(words[0])]
LISTING = b'O 3 2 1\nS 0 0 50 1 0 20\nS 0 0 70\nN 2\nD 2\nN 2\nN 1\nD 1\nF 0\nC 1\nR 0 15\n'
BOOK = model.laid_out([[(0, 0, 50), (1, 0, 20)], [(31, 1, -1000)]])
INPUT = {'plot_hub': LISTING, 'show_book': BOOK}
NOT_READ, NOT_WRITTEN = 'standard input cannot be read', 'standard output cannot be written'
STRANGE_NAMES = ['with space', '-dash', '--help', '--', '-', 'line\nend', 'end\n', '*', "quote'\"$(x)`y`\\", 'é', '\x1b[31m', '(', '!']
checked = 0


def key_of(sitting):
    return subprocess.run([REFERENCE], input=sitting, stdout=subprocess.PIPE, check=True).stdout


def output_of(name, text):
    """What the program must print, by the reference and the model."""
    return key_of(text) if name == 'plot_hub' else ('\n'.join(show.lines(text)) + '\n').encode()


def hints_of(name, text):
    return hints.hints(text, key_of(text)) if name == 'plot_hub' else b''


def built(root, program):
    """Where a tree like the repository's has a program."""
    return os.path.join(root, 'target/bin', 'run_' + program)


def tree(folder, shell, release=False):
    """A copy of TREE whose scripts are run by the shell; laid out as a release, if that is asked for."""
    start, programs = ('libexec/plot_hub', 'libexec/plot_hub') if release else ('bin', 'target/bin')
    for part in ('bin', start, programs):
        os.makedirs(os.path.join(folder, part), exist_ok=True)
    for script, place in (('plot_hub', 'bin'), ('show_book', 'bin'), ('start', start)):
        with open(os.path.join(TREE, 'bin', script), encoding='utf-8') as file:
            text = file.read().split('\n', 1)
        assert text[0] == '#!/bin/sh', script
        path = os.path.join(folder, place, script)
        with open(path, 'w', encoding='utf-8') as file:
            file.write('#!' + ' '.join([shutil.which(shell[0])] + shell[1:]) + '\n' + text[1])
        os.chmod(path, 0o755)
    for program in ('plot_hub', 'show_book', 'plot_hub_hints'):
        os.symlink(os.path.realpath(built(TREE, program)), os.path.join(folder, programs, program) if release else built(folder, program))
    if not release:
        os.makedirs(os.path.join(folder, 'tools'), exist_ok=True)
    for file in ('VERSION', 'KIT') if release else ('VERSION', 'KIT', 'crates.txt', 'bin/build.sh', 'tools/build'):
        shutil.copy(os.path.join(TREE, file), os.path.join(folder, file))


class Commands:
    """The commands of one tree, and a folder for the files of the cases."""

    def __init__(self, root, folder):
        self.root, self.folder = root, folder
        self.temporary = os.path.join(folder, 'temporary')
        os.makedirs(self.temporary, exist_ok=True)

    def write(self, name, text):
        path = os.path.join(self.folder, name)
        with open(path, 'wb') as file:
            file.write(text)
        return path

    def run(self, name, *words, redirect='', text=b'', before='', **options):
        """Runs a command as a shell does, with redirections; `before` is run in the same shell first."""
        command = ['sh', '-c', f'{before}\nexec "$@" {redirect}', 'sh', os.path.join(self.root, 'bin', name), *words]
        environment = dict(os.environ, TMPDIR=self.temporary)
        environment.update(options.pop('environment', {}))
        ran = subprocess.run(command, input=text, stdout=subprocess.PIPE, stderr=subprocess.PIPE, env=environment, timeout=60, **options)
        return ran.returncode, ran.stdout, ran.stderr

    def check(self, expected, name, *words, **options):
        """`expected` is status, standard output, standard error. No temporary file is left."""
        global checked
        got = self.run(name, *words, **options)
        wanted = tuple(part.encode() if isinstance(part, str) else part for part in expected)
        options.pop('text', None)
        assert got == wanted, f'{self.root}: {name} {words} {options}\nexpected: {wanted}\n     got: {got}'
        assert os.listdir(self.temporary) == [], 'temporary files are left'
        checked += 1


def good(text, said=b''):
    return 0, text, said


def bad(name, message, printed=b''):
    return 1, printed, f'{name}: {message}\n'


# ---- cases

def ways_of_reading(c, name, *options):
    """A file, its name however strange, standard input as a file and as a pipe; the same with --hints."""
    text = INPUT[name]
    expected = good(output_of(name, text), hints_of(name, text) if options else b'')
    plain = c.write('plain', text)
    c.check(expected, name, *options, plain)
    c.check(expected, name, plain, *options)
    for words in ([], ['-'], ['--'], ['--', '-']):
        c.check(expected, name, *options, *words, text=text)
        c.check(expected, name, *options, *words, redirect='<plain', cwd=c.folder)
    for file in STRANGE_NAMES:
        c.write(file, text)
        words = ['./-'] if file == '-' else ['--', file]
        c.check(expected, name, *options, *words, cwd=c.folder, redirect='</dev/null')
    os.makedirs(os.path.join(c.folder, 'a folder\n'), exist_ok=True)
    c.check(expected, name, *options, c.write('a folder\n/file', text))
    c.check(expected, name, *options, '/dev/stdin', text=text)
    pipe = os.path.join(c.folder, 'pipe')
    os.mkfifo(pipe)
    c.check(expected, name, *options, pipe, before=f"cat '{plain}' >'{pipe}' &")
    os.remove(pipe)
    c.write('longer', b'a line\n' + text)
    with open(os.path.join(c.folder, 'longer'), 'rb') as file:
        c.check(expected, name, *options, before='read -r line', stdin=file, text=None)
    if name == 'plot_hub':
        c.check(good(b'', hints_of(name, b'') if options else b''), name, *options, redirect='</dev/null')


def cannot_be_opened(c, name, *options):
    plain = c.write('plain', INPUT[name])
    local, listening = socket.socket(socket.AF_UNIX), socket.create_server(('127.0.0.1', 0))
    local.bind(os.path.join(c.folder, 'socket'))
    port = f'/dev/tcp/127.0.0.1/{listening.getsockname()[1]}'  # no file, but bash would open it as a connection
    os.symlink('loop', os.path.join(c.folder, 'loop'))
    os.symlink('nowhere', os.path.join(c.folder, 'dangling'))
    os.makedirs(os.path.join(c.folder, 'a folder'), exist_ok=True)
    for file, shown in (('missing', None), ('', None), ('socket', None), ('loop', None), ('dangling', None), ('plain/x', None),
                        ('no\nsuch\tfile\x1b', 'no?such?file?'), ('x' * 5000, None), (port, None), ('no such é', None)):
        expected = bad(name, f'{file if shown is None else shown}: cannot be opened')
        c.check(expected, name, *options, '--', file, cwd=c.folder, text=INPUT[name])
    for file, shown in (('/', None), ('.', None), ('a folder', None), ('a folder/', None), ('a folder\n', 'a folder?')):
        c.check(bad(name, f'{file if shown is None else shown}: is a directory'), name, *options, file, cwd=c.folder, text=INPUT[name])
    os.remove(os.path.join(c.folder, 'socket'))
    os.remove(os.path.join(c.folder, 'loop'))
    os.remove(os.path.join(c.folder, 'dangling'))
    local.close()
    listening.close()
    not_mine(c, name, plain, options)


def not_mine(c, name, plain, options):
    """A file that this user may not read. Root may read all, so another user has to try, if one can run the command at all."""
    user = {'user': 65534, 'group': 65534} if os.getuid() == 0 else {}
    os.chmod(plain, 0)
    if not user or c.run(name, '--version', **user)[0] == 0:
        c.check(bad(name, f'{plain}: cannot be opened'), name, *options, plain, **user)
    else:
        print(f'not tried: {name} on a file that may not be read; another user cannot run it here')
    os.chmod(plain, 0o644)


def cannot_be_read(c, name):
    c.check(bad(name, NOT_READ), name, redirect='</')
    c.check(bad(name, NOT_READ), name, redirect='<&-')
    c.check(bad(name, NOT_READ), name, redirect='0>/dev/null')
    c.check(bad(name, NOT_READ), name, '/proc/self/mem')
    not_copied = 'the input cannot be copied to a temporary file'
    c.check(bad(name, not_copied), name, '--hints', redirect='</')
    c.check(bad(name, not_copied), name, '--hints', redirect='<&-')
    c.check(bad(name, NOT_READ), name, '--hints', '/proc/self/mem')
    c.check(bad(name, 'no temporary file can be made'), name, '--hints', text=INPUT[name], environment={'TMPDIR': '/nowhere'})
    c.check(bad(name, not_copied), name, '--hints', text=b'N 1\n' * 100000, before="trap '' XFSZ; ulimit -f 8")


def cannot_be_written(c, name, large):
    """Full disks and closed pipes; what was written before is there."""
    plain = c.write('plain', INPUT[name])
    for options in ([], ['--hints']):
        for words in ([plain], ['-']):
            c.check(bad(name, NOT_WRITTEN), name, *options, *words, redirect='>/dev/full', text=INPUT[name])
            c.check(bad(name, NOT_WRITTEN), name, *options, *words, redirect='>&-', text=INPUT[name])
            c.check(bad(name, NOT_WRITTEN), name, *options, *words, redirect='1</dev/null', text=INPUT[name])
    for word in ('--help', '--version'):
        for redirect in ('>/dev/full', '>&-', '<&- >&-'):
            c.check(bad(name, NOT_WRITTEN), name, word, redirect=redirect)
    for words in ([plain], [], ['--hints', plain], ['--hints'], ['--help'], ['--version']):
        closed_pipe(c, name, words)
    if name == 'plot_hub':
        for words in ([large], ['--hints', large]):
            after_a_line(c, name, words)


def closed_pipe(c, name, words):
    """A pipe whose other end was closed before the command starts, with SIGPIPE at its default and ignored."""
    global checked
    for restore in (True, False):
        end, other = os.pipe()
        os.close(end)
        old = signal.signal(signal.SIGPIPE, signal.SIG_IGN)
        ran = subprocess.run([os.path.join(c.root, 'bin', name), *words], input=INPUT[name], stdout=other, stderr=subprocess.PIPE,
                             restore_signals=restore, timeout=60)
        signal.signal(signal.SIGPIPE, old)
        os.close(other)
        assert (ran.returncode, ran.stderr.decode()) == (1, f'{name}: {NOT_WRITTEN}\n'), (name, words, ran)
        checked += 1


def after_a_line(c, name, words):
    """A pipe that is closed after the first of many lines."""
    global checked
    with subprocess.Popen([os.path.join(c.root, 'bin', name), *words], stdout=subprocess.PIPE, stderr=subprocess.PIPE) as ran:
        assert ran.stdout.readline() == b'opened\n'
        ran.stdout.close()
        said = ran.stderr.read().decode()
    assert (ran.returncode, said) == (1, f'{name}: {NOT_WRITTEN}\n'), (name, words, ran.returncode, said)
    checked += 1


def closed_streams(c, name):
    """Closed ones that are not needed change nothing; a closed standard error loses the message, not the status."""
    text = INPUT[name]
    plain, printed = c.write('plain', text), output_of(name, text)
    c.check(good(printed), name, plain, redirect='<&-')
    for options in ([], ['--hints']):
        c.check(good(printed), name, *options, plain, redirect='2>&-')
        c.check(good(printed), name, *options, redirect='2>&-', text=text)
        c.check(good(printed), name, *options, plain, redirect='2>/dev/full')
        c.check(good(printed), name, *options, plain, redirect='<&- 2>&-')
        c.check((1, b'', b''), name, *options, plain, redirect='>&- 2>&-')
        c.check((1, b'', b''), name, *options, plain, redirect='<&- >&- 2>&-')
        c.check((1, b'', b''), name, *options, redirect='<&- >&- 2>&-')
    c.check((1, b'', b''), name, 'missing', redirect='2>&-')
    c.check((2, b'', b''), name, '--nope', redirect='2>&-')


def wrong_words(c, name):
    for word in ('--nope', '-x', '-h', '--hint', '--hints=1', '---', '--a\nb', '-- ', '--versions'):
        shown = word.replace('\n', '?')
        c.check((2, b'', f'{name}: unknown option {shown}; try {name} --help\n'), name, word, text=INPUT[name])
        c.check((2, b'', f'{name}: unknown option {shown}; try {name} --help\n'), name, '--hints', 'file', word, text=INPUT[name])
    for words in (['a', 'b'], ['-', '-'], ['', ''], ['--', 'a', '--help'], ['--hints', 'a', '-'], ['a', '--', 'b']):
        c.check((2, b'', f'{name}: more than one file; try {name} --help\n'), name, *words, text=INPUT[name])


def help_and_version(c, name):
    with open(os.path.join(TREE, 'VERSION'), encoding='utf-8') as version, open(os.path.join(TREE, 'KIT'), encoding='utf-8') as kit:
        expected = f'{name} {version.read().strip()}\nproved with {kit.read().strip()}\n'
    c.check(good(expected.encode()), name, '--version')
    c.check(good(expected.encode()), name, '--hints', '--version', '--nope', redirect='<&-')
    status, text, said = c.run(name, '--help')
    assert (status, said) == (0, b'') and max(map(len, text.decode().split('\n')[:-2])) <= 80, text
    wanted = [f'{name} [--hints] [--] [FILE]\n', 'standard input', '--hints  ', '--help  ', '--version  ', 'Exit status: 0', 'HANDBOOK.md']
    wanted += [f'\n  {letter} ' for letter in 'OSNDBCFR'] if name == 'plot_hub' else ['LAYOUT.md']
    assert all(part in text.decode() for part in wanted), text
    c.check(good(text), name, '--help')


def ended_otherwise(shell, folder):
    """Programs put in the place of the tested ones: what the status is about."""
    c = Commands(os.path.join(folder, 'other'), folder)
    tree(c.root, shell)
    for name in NAMES:
        path = built(c.root, name)
        for script, expected in (
                ('echo opened; kill -KILL $$', (1, 'opened\n', f'{name}: ended by signal 9; what it printed is not whole\n')),
                ('kill -SEGV $$', bad(name, 'ended by signal 11; what it printed is not whole')),
                ('echo some; kill -TERM $$', (1, 'some\n', f'{name}: ended by signal 15; what it printed is not whole\n')),
                ('echo all; exit 3', (1, 'all\n', f'{name}: ended with status 3; what it printed is not whole\n')),
                ('echo some; echo broken >&2', (1, 'some\n', 'broken\n')),
                ('echo broken >&2; kill -KILL $$', (1, '', f'broken\n{name}: ended by signal 9; what it printed is not whole\n')),
                ('[ ! -e /proc/$$/fd/3 ] && [ ! -e /proc/$$/fd/4 ] && [ ! -e /proc/$$/fd/6 ] && [ ! -e /proc/$$/fd/7 ] && echo few',
                 good(b'few\n'))):
            os.remove(path)
            with open(path, 'w', encoding='utf-8') as file:
                file.write(f'#!/bin/sh\n{script}\n')
            os.chmod(path, 0o755)
            c.check(expected, name)
            c.check(expected, name, '/dev/null')
            if expected[0] == 1:
                c.check(expected, name, '--hints')
                c.check(expected, name, '--hints', c.write('plain', INPUT[name]))
            else:
                c.check(good(expected[1], hints_of(name, b'')), name, '--hints')
        with open(path, 'wb') as file:
            file.write(b'\x7fELF no program')
        status, printed, said = c.run(name)
        assert status == 1 and printed == b'' and said.endswith(b'ended with status 126; what it printed is not whole\n'), said
    hints_that_fail(c)


def hints_that_fail(c):
    """The status is about the key alone."""
    for program, target in (('plot_hub', built(TREE, 'plot_hub')), ('plot_hub_hints', None)):
        path = built(c.root, program)
        os.remove(path)
        if target:
            os.symlink(os.path.realpath(target), path)
        else:
            with open(path, 'w', encoding='utf-8') as file:
                file.write('#!/bin/sh\necho some\nkill -KILL $$\n')
            os.chmod(path, 0o755)
    status, printed, said = c.run('plot_hub', '--hints', c.write('plain', LISTING))
    assert (status, printed) == (0, key_of(LISTING)), status
    assert said.startswith(b'some\n') and said.endswith(b'plot_hub: the hints are not whole\n'), said


def not_whole(shell, folder):
    """A release that lacks a program is not built: there is nothing to build it from."""
    c = Commands(os.path.join(folder, 'bare release'), folder)
    tree(c.root, shell, release=True)
    kit = fake_kit(c, 'touch "$root/called"')

    def place(program):
        return os.path.join(c.root, 'libexec/plot_hub', program)

    def message(program):
        return bad('plot_hub' if program == 'plot_hub_hints' else program, f'this release is not whole: there is no {place(program)}')
    os.remove(place('plot_hub_hints'))
    c.check(message('plot_hub_hints'), 'plot_hub', '--hints', text=LISTING, environment=kit)
    c.check(good(key_of(LISTING)), 'plot_hub', text=LISTING, environment=kit)
    for name in NAMES:
        os.remove(place(name))
        for options in ([], ['--hints']):
            c.check(message(name), name, *options, text=INPUT[name], environment=kit)
    assert not os.path.exists(os.path.join(c.root, 'called'))


# ---- building

# What bin/ needs besides the kit.
TOOLS = ['sh', 'awk', 'cat', 'cmp', 'cp', 'date', 'dirname', 'find', 'flock', 'head', 'mkdir', 'mktemp', 'mv', 'readlink', 'rm', 'sed',
         'setsid', 'sleep', 'tail', 'touch', 'tr']
# In the place of rt: it tells where it was called and with what, does `script`, then says and makes what rt would; it prints what it reads.
FAKE_RT = '''#!/bin/sh
root={root}
crate=${{PWD##*/}}
echo "$PWD: $*" >>"$root/called"
{script}
for proved in {crates}; do
    [ -e "$root/target/told" ] || printf '%s\\n' "crate $proved: modules loaded=0 checked=1" 'logic=proved functions=1' >&2
done
touch "$root/target/told"
[ ! -e {programs}/$crate ] || ln -sf {programs}/$crate out/$crate
cat
'''


def quoted(path):
    return "'" + path.replace("'", "'\\''") + "'"


def fake_kit(c, script='', lacking='', crates=()):
    """An environment in which rt is a fake one and no tool but those of TOOLS is there; `lacking` names one that is not."""
    kit = os.path.join(c.folder, 'kit')
    shutil.rmtree(kit, ignore_errors=True)
    os.makedirs(kit)
    for tool in TOOLS + ['ln']:
        if tool != lacking:
            os.symlink(shutil.which(tool), os.path.join(kit, tool))
    if lacking != 'rt':
        with open(os.path.join(kit, 'rt'), 'w', encoding='utf-8') as file:
            programs = quoted(os.path.realpath(os.path.join(TREE, 'target/bin')))
            file.write(FAKE_RT.format(root=quoted(c.root), script=script, crates=' '.join(crates), programs=programs))
        os.chmod(os.path.join(kit, 'rt'), 0o755)
    return {'PATH': kit}


def built_on(*names):
    """The crates, each behind those that it names, as rt takes them: from crates.txt, whose lines stand in such an order."""
    with open(os.path.join(TREE, 'crates.txt'), encoding='utf-8') as file:
        needs = {line.split(':')[0].split()[0]: line.split(':')[1].split() for line in file if line.strip() and not line.startswith('#')}
    found, todo = set(), list(names)
    while todo:
        crate = todo.pop()
        if crate in needs and crate not in found:
            found.add(crate)
            todo += needs[crate]
    return [crate for crate in needs if crate in found]


def told(name, crates):
    """What standard error is told of a build."""
    minutes = (len(crates) + 4) // 5
    lines = [f'not built yet; it is proved first, {len(crates)} crates, which takes some {minutes} minutes on two processors']
    lines += [f'{number} of {len(crates)} crates proved: {crate}' for number, crate in enumerate(crates, 1)]
    return ''.join(f'{name}: {line}\n' for line in lines + ['built in 0 s']).encode()


class Bare(Commands):
    """A tree like the repository's where nothing is built, and what rt was called with there."""

    def __init__(self, shell, folder, root):
        super().__init__(os.path.join(folder, root), folder)
        tree(self.root, shell)
        self.bare()

    def bare(self):
        for folder in ('target', 'crates'):
            shutil.rmtree(os.path.join(self.root, folder), ignore_errors=True)
        for crate in ('run_plot_hub', 'run_plot_hub_hints', 'run_show_book'):
            os.makedirs(os.path.join(self.root, 'crates', crate, 'src'))
            for file in ('src/main.rt', 'stdin', 'stdout'):
                with open(os.path.join(self.root, 'crates', crate, file), 'w', encoding='utf-8') as text:
                    text.write(f'what {crate} reads, and prints\n')
        self.calls()

    def run(self, *words, **options):
        status, printed, said = super().run(*words, **options)
        return status, printed, re.sub(rb'built in \d+ s\n', b'built in 0 s\n', said)

    def calls(self):
        """The crate and the words of each call since this was last asked."""
        try:
            with open(os.path.join(self.root, 'called'), encoding='utf-8') as file:
                lines = file.read().split('\n')[:-1]
            os.remove(os.path.join(self.root, 'called'))
        except FileNotFoundError:
            return []
        folder = os.path.join(self.root, 'crates/')
        assert all(line.startswith(folder) for line in lines), lines
        return [line[len(folder):] for line in lines]

    def log(self):
        return os.path.join(self.root, 'target/build.log')

    def linked(self, program):
        """Where rt has a program that it has linked."""
        return os.path.join(self.root, 'crates', 'run_' + program, 'out', 'run_' + program)


def builds_first(c):
    """One command: what is not built is built, and then does what it was asked. The second time it is there."""
    for name in NAMES:
        crates, text = built_on('run_' + name), INPUT[name]
        kit, expected = fake_kit(c, crates=crates), good(output_of(name, text), told(name, crates))
        link = os.path.join(c.folder, 'a link')
        os.symlink(os.path.join(c.root, 'bin', name), link)
        c.write('plain', text)
        for words, options in (([], {'text': text, 'cwd': '/'}),
                               (['plain'], {'cwd': c.folder, 'before': f'set -- {quoted(link)} "$2"'})):
            c.bare()
            c.check(expected, name, *words, environment=kit, **options)
            assert c.calls() == [f'run_{name}: run']
            c.check(good(expected[1]), name, *words, environment=kit, **options)
            assert c.calls() == []
        os.remove(link)
        with open(c.log(), 'rb') as file:
            assert file.read().startswith(b'crate '), 'rt has printed what it reads'
        c.bare()
        c.check(good(expected[1]), name, text=text, environment=kit, redirect='2>&-')
        for word in ('--help', '--version'):
            c.bare()
            assert c.run(name, word, environment=kit)[::2] == (0, b'') and c.calls() == []


def builds_hints(c):
    """With --hints both programs in one go, or the one that is not there."""
    both, hinted = built_on('run_plot_hub', 'run_plot_hub_hints'), built_on('run_plot_hub_hints')
    said, key = hints_of('plot_hub', LISTING), key_of(LISTING)
    c.bare()
    c.check(good(key, told('plot_hub', both) + said), 'plot_hub', '--hints', text=LISTING, environment=fake_kit(c, crates=both))
    assert c.calls() == ['run_plot_hub: run', 'run_plot_hub_hints: run']
    os.remove(built(c.root, 'plot_hub_hints'))
    c.check(good(key), 'plot_hub', text=LISTING)
    first, *_, last = told('plot_hub', hinted).splitlines(keepends=True)
    c.check(good(key, first + last + said), 'plot_hub', '--hints', text=LISTING, environment=fake_kit(c))
    assert c.calls() == [], 'what rt has linked is still there'
    for file in (built(c.root, 'plot_hub_hints'), c.linked('plot_hub_hints'), os.path.join(c.root, 'target/told')):
        os.remove(file)
    c.check(good(key, told('plot_hub', hinted) + said), 'plot_hub', '--hints', text=LISTING, environment=fake_kit(c, crates=hinted))
    assert c.calls() == ['run_plot_hub_hints: run']
    c.bare()
    crates = built_on('run_show_book')
    c.check(good(output_of('show_book', BOOK), told('show_book', crates)), 'show_book', '--hints', text=BOOK,
            environment=fake_kit(c, crates=crates))
    assert c.calls() == ['run_show_book: run']


def cannot_be_built(c):
    """A tool that is not there, a folder that cannot be written, words and files for which nothing is built."""
    for tool in ('rt', 'flock', 'setsid'):
        shown = "the Rattle kit's rt" if tool == 'rt' else f"{tool} of Debian's package util-linux"
        c.bare()
        for name in NAMES:
            c.check(bad(name, f'not built yet; building it needs {shown}, which is not on the PATH'), name, text=INPUT[name],
                    environment=fake_kit(c, lacking=tool))
    kit = fake_kit(c)
    with open(os.path.join(c.root, 'target'), 'wb'):
        c.check(bad('plot_hub', f'not built yet, and {c.root}/target cannot be written'), 'plot_hub', text=LISTING, environment=kit)
    os.remove(os.path.join(c.root, 'target'))
    c.check(bad('plot_hub', 'missing: cannot be opened'), 'plot_hub', 'missing', cwd=c.folder, environment=kit)
    c.check(bad('plot_hub', '/: is a directory'), 'plot_hub', '/', environment=kit)
    c.check((2, b'', 'plot_hub: unknown option -x; try plot_hub --help\n'), 'plot_hub', '-x', environment=kit)
    assert c.calls() == []


def fails_to_build(c):
    """A build that fails, after it has linked the program or before: nothing is printed, and the next start builds again."""
    crates = built_on('run_plot_hub')
    first = told('plot_hub', crates).split(b'\n')[0] + b'\n'
    made, target = quoted(os.path.realpath(built(TREE, 'plot_hub'))), quoted(built(c.root, 'plot_hub'))
    linked = f'ln -sf {made} out/run_plot_hub'
    failed = f'plot_hub: the build has failed; what rt said is in {c.log()}\n'.encode()
    proved = "printf '%s\\n' 'crate rules: modules loaded=0 checked=1' 'logic=proved functions=1' >&2"
    for script, said in (
            (proved + "; echo 'logic=not-proved functions=1' >&2; exit 1",
             b'plot_hub: 1 of %d crates proved: rules\n' % len(crates) + failed),
            (linked + '; cat; exit 1', failed),
            (linked + '; echo something else; exit 0', failed),
            (linked + '; kill -KILL $$', failed),
            ('cat; exit 0', failed)):
        c.bare()
        c.check((1, b'', first + said), 'plot_hub', text=LISTING, environment=fake_kit(c, script))
        assert c.calls() == ['run_plot_hub: run']
        remove = f'[ ! -e {target} ] || exit 1'
        c.check(good(key_of(LISTING), told('plot_hub', crates)), 'plot_hub', text=LISTING, environment=fake_kit(c, remove, crates=crates))
        assert c.calls() == ['run_plot_hub: run']


def breaks_off(c):
    """A signal ends the build, with all that rt has started, and what is half made is no program."""
    global checked
    crates = built_on('run_plot_hub')
    half = f"ln -sf {quoted(os.path.realpath(built(TREE, 'plot_hub')))} out/run_plot_hub"
    for number in (signal.SIGINT, signal.SIGTERM, signal.SIGHUP):
        for whole_group in (True, False):
            c.bare()
            environment = dict(os.environ, **fake_kit(c, half + '; sleep 50 & sleep 50'))
            ran = subprocess.Popen([os.path.join(c.root, 'bin/plot_hub'), '/dev/null'], stdout=subprocess.PIPE, stderr=subprocess.PIPE,
                                   env=environment, start_new_session=True, preexec_fn=as_from_a_terminal)
            wait_until(lambda: os.path.lexists(c.linked('plot_hub')), 'nothing is built')
            (os.killpg if whole_group else os.kill)(ran.pid, number)
            printed, said = ran.communicate(timeout=60)
            assert (ran.returncode, printed) == (130, b''), (number, ran.returncode, printed)
            assert said == told('plot_hub', crates).split(b'\n')[0] + b'\nplot_hub: not built: broken off\n', said
            lock = os.path.join(c.root, 'target/build.lock')
            wait_until(lambda: subprocess.run(['flock', '-n', lock, 'true'], check=False).returncode == 0, 'something of rt is left')
            checked += 1
    remove = f'[ ! -e {quoted(built(c.root, "plot_hub"))} ] || exit 1'
    c.check(good(key_of(LISTING), told('plot_hub', crates)), 'plot_hub', text=LISTING, environment=fake_kit(c, remove, crates=crates))


def two_at_once(c):
    """One builds, the other waits for it: rt is called once."""
    global checked
    crates, expected = built_on('run_plot_hub'), key_of(LISTING)
    c.bare()
    environment = dict(os.environ, **fake_kit(c, 'while [ ! -e "$root/go" ]; do sleep 0.1; done', crates=crates))
    command, both = [os.path.join(c.root, 'bin/plot_hub'), c.write('plain', LISTING)], []
    for _ in range(2):
        both.append(subprocess.Popen(command, stdout=subprocess.PIPE, stderr=subprocess.PIPE, env=environment))
        wait_until(lambda: os.path.exists(os.path.join(c.root, 'called')), 'nothing is built')
    line = both[1].stderr.readline()
    assert line == b'plot_hub: another start builds it; waiting\n', line
    with open(os.path.join(c.root, 'go'), 'wb'):
        ends = [(*ran.communicate(timeout=60), ran.returncode) for ran in both]
    os.remove(os.path.join(c.root, 'go'))
    assert ends[1] == (expected, b'', 0), ends[1]
    assert ends[0][::2] == (expected, 0), ends[0]
    assert c.calls() == ['run_plot_hub: run']
    checked += 2


def wait_until(holds, why):
    for _ in range(1000):
        if holds():
            return
        time.sleep(0.01)
    raise AssertionError(why)


def building(shell, folder):
    c = Bare(shell, folder, 'bare tree')
    for cases in (builds_first, builds_hints, cannot_be_built, fails_to_build, breaks_off, two_at_once):
        cases(c)


# ---- signals, books, keys

def as_from_a_terminal():
    """A gate that runs in the background has signals ignored; a command that is started so never sees them."""
    for number in (signal.SIGINT, signal.SIGTERM, signal.SIGHUP):
        signal.signal(number, signal.SIG_DFL)


def signals(c):
    """A command with --hints that waits for its input is ended: no temporary file is left. (SIGINT comes from a terminal, to all.)"""
    global checked
    for number in (signal.SIGINT, signal.SIGTERM, signal.SIGHUP, signal.SIGKILL):
        for whole_group in (True, False)[:1 if number == signal.SIGINT else 2]:
            ran = subprocess.Popen([os.path.join(c.root, 'bin/plot_hub'), '--hints'], stdin=subprocess.PIPE, stdout=subprocess.PIPE,
                                   stderr=subprocess.PIPE, env=dict(os.environ, TMPDIR=c.temporary), start_new_session=True,
                                   preexec_fn=as_from_a_terminal)
            ran.stdin.write(LISTING)
            ran.stdin.flush()
            wait_for_copy(ran.pid)
            assert os.listdir(c.temporary) == []
            (os.killpg if whole_group else os.kill)(ran.pid, number)
            ran.stdin.close()
            status = ran.wait(timeout=60)
            assert status not in (0, 1, 2), status
            assert ran.stdout.read() == b'' and os.listdir(c.temporary) == []
            ran.stdout.close()
            ran.stderr.close()
            checked += 1


def wait_for_copy(group):
    """Until the copier of this process group is at work: it has a file open that has no name."""
    for _ in range(1000):
        for process in filter(str.isdigit, os.listdir('/proc')):
            try:
                if os.getpgid(int(process)) == group and os.readlink(f'/proc/{process}/exe').endswith('/cat'):
                    return
            except OSError:
                continue
        time.sleep(0.01)
    raise AssertionError('nothing is copied')


MEANINGS = {
    18: 'the book is too short for its count and its pairs, or its count is more than 64',
    19: 'a routine is not where the one before it ends, or the book ends inside one or goes on behind the last',
    20: 'routine {}, counted from 0, has a length that is not 4, 8, 12 and so on up to 32 bytes',
    5: 'in some routine, command {}, counted from 0, is for a device above 31',
    6: 'in some routine, command {}, counted from 0, has a setting that is not -1000 to 1000',
    7: 'in some routine, command {}, counted from 0, has a tag above 2',
    22: 'in some routine, command {}, counted from 0, is a condition, and no command follows it, or another condition does',
}


def refused_books(c):
    """Each refusal that a book can have, and what --hints says of it."""
    fine = (0, 0, 0)
    books = [b'', b'\0', b'\1\0', b'\x41\0' + bytes(520), b'\0\0\0', BOOK + b'\0', BOOK[:-1], BOOK[:2] + b'\xff' + BOOK[3:]]
    commands = [(32, 0, 0), (255, 0, 0), (0, 0, 1001), (0, 0, -1001), (0, 0, -32768), (0, 3, 0), (0, 2, 0)]
    books += [model.laid_out(routines) for wrong in commands
              for routines in ([[wrong]], [[fine] * 7 + [wrong]], [[fine], [fine, wrong]])]
    books += [model.laid_out([[fine, (0, 2, 0), (1, 2, 0), fine]]), model.laid_out([[]]), model.laid_out([[fine], [fine] * 9])]
    met = set()
    for book in books:
        printed = output_of('show_book', book)
        word, number, *index = printed.decode().split()
        assert word == 'refused', book
        met.add(int(number))
        said = f'{printed.decode().strip()}: {MEANINGS[int(number)].format(*index)}\n'.encode()
        c.check(good(printed, said), 'show_book', '--hints', text=book)
        c.check(good(printed, said), 'show_book', '--hints', c.write('book', book))
        c.check(good(printed), 'show_book', text=book)
    assert met == set(MEANINGS), met


def same_bytes(commands):
    """Random and damaged sittings in every way, by each shell in turn: the program's own key, which is the reference's."""
    for index in range(60):
        kind = 'damaged' if index % 3 else 'random'
        sitting = subprocess.run([HISTORY, kind, SEED, str(index)], stdout=subprocess.PIPE, check=True).stdout
        own = subprocess.run([built(TREE, 'plot_hub')], input=sitting, stdout=subprocess.PIPE, check=True).stdout
        assert own == key_of(sitting), f'{kind} {SEED} {index}'
        c = commands[index % len(commands)]
        plain = c.write('plain', sitting)
        for options, said in (([], b''), (['--hints'], hints_of('plot_hub', sitting))):
            c.check(good(own, said), 'plot_hub', *options, plain)
            c.check(good(own, said), 'plot_hub', *options, redirect='<plain', cwd=c.folder)
            c.check(good(own, said), 'plot_hub', *options, text=sitting)


def one_shell(shell, folder, release):
    c = Commands(os.path.join(folder, 'some tree'), folder)
    tree(c.root, shell, release)
    large = c.write('large', subprocess.run([BENCH_INPUTS, 'refused', '200000'], stdout=subprocess.PIPE, check=True).stdout)
    for name in NAMES:
        for options in ([], ['--hints']):
            ways_of_reading(c, name, *options)
            cannot_be_opened(c, name, *options)
        cannot_be_read(c, name)
        cannot_be_written(c, name, large)
        closed_streams(c, name)
        wrong_words(c, name)
        help_and_version(c, name)
    refused_books(c)
    signals(c)
    ended_otherwise(shell, folder)
    not_whole(shell, folder)
    building(shell, folder)
    return c


def main():
    with tempfile.TemporaryDirectory(dir=TREE) as scratch:
        os.chmod(scratch, 0o755)
        commands = []
        for number, shell in enumerate(SHELLS):
            folder = os.path.join(scratch, str(number))
            os.mkdir(folder)
            commands.append(one_shell(shell, folder, release=number == 1))
        same_bytes(commands)
    print(f'{checked} cases, with', ', '.join(' '.join(shell) for shell in SHELLS))
    return 0


if __name__ == '__main__':
    sys.exit(main())
