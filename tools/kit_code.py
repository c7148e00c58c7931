"""The code for LLVM that the kit makes of a crate, kept while it works, and what clang makes of that code.

`rt` keeps nothing of it: `rt try` and `rt lib` write the code to a folder of their own below TMPDIR, and remove it with
that folder. So they are given a TMPDIR that is watched, and a file that appears there gets a second name.
"""

import os
import re
import shlex
import shutil
import signal
import subprocess
import time
from pathlib import Path

TOP = Path(__file__).resolve().parent.parent
CRATES = TOP / 'crates'

# How often a look is taken at what the kit has made, in seconds.
PAUSE = 0.2

# The seconds of processors of what was ended before its time.
USED: list[float] = []

# Code of fewer bytes is the one by which the kit tries its clang, before it compiles the crate.
TRIAL_SIZE = 100_000

# For which machine clang compiles here.
TARGET = ('--target=x86_64-unknown-linux-gnu', '-march=x86-64')

# The crate whose code has all that is made without proof: the programs, the exports of the library, and the tests of
# crates. One test of it calls all that is no test, so that it is there.
SCRATCH, ALL = 'mir_all', 'all_that_is_no_test'
PROGRAMS = ('mir_main', 'mir_tables')
EXPORT = re.compile(r'#\[unsafe\(no_mangle\)\]\npub extern "C" fn (\w+)\(([^)]*)\)')
VALUES = {'Global': 'rt.alloc()', '&[u8]': 'b""', '&mut [u8]': '&mut [0u8; 1]', '&mut usize': '&mut 0'}


class Fault(Exception):
    """Why something could not be made, in a line or more."""


def newest_source() -> float:
    """When a source was last changed."""
    files = [TOP / 'crates.txt']
    for part in ('src', 'specs', 'proofs'):
        files += (path for path in CRATES.glob(f'*/{part}/**/*') if path.is_file())
    return max(path.stat().st_mtime for path in files)


def kit() -> Path:
    """The folder of the kit."""
    rt = shutil.which('rt')
    if rt is None:
        raise Fault('there is no rt here: the Rattle kit is needed')
    return Path(rt).resolve().parent.parent


def ran(words: list) -> bytes:
    """What a command writes; where it fails, what it says is the fault."""
    try:
        done = subprocess.run(words, stdin=subprocess.DEVNULL, stdout=subprocess.PIPE, stderr=subprocess.PIPE)
    except OSError as fault:
        raise Fault(str(fault)) from fault
    if done.returncode:
        raise Fault((done.stdout + done.stderr).decode('utf-8', 'replace').strip() or f'{words[0]} failed')
    return done.stdout


def clang(*words) -> bytes:
    """What the kit's clang writes."""
    return ran([kit() / 'toolchain/bin/clang', *words])


def whole_code(room: Path) -> list[Path]:
    """The code that stands whole in a room: clang, which reads it, has begun to write what it makes of it."""
    try:
        return [path for path in room.rglob('*.bc') if any(path.parent.glob('*.o*')) and path.stat().st_size > TRIAL_SIZE]
    except FileNotFoundError:
        return []  # a folder went while it was read


def children_of(process: int) -> list[int]:
    """The processes that a process has started and that run."""
    return [int(one) for one in Path(f'/proc/{process}/task/{process}/children').read_text().split()]


def used_below(process: int) -> float:
    """The seconds of processors that the children of a process have taken so far: of one that is ended before it is waited
    for, nothing else tells them."""
    used = 0
    for child in children_of(process):
        try:
            fields = Path(f'/proc/{child}/stat').read_text().rpartition(') ')[2].split()
            used += sum(map(int, fields[11:15]))
        except OSError:
            pass  # it has ended
    return used / os.sysconf('SC_CLK_TCK')


def end_hint(rt: int) -> None:
    """Ends the check of names that `rt try` runs beside its work, which tells early what a proof would refuse, and takes
    as long as the work itself. It is a child of that `rt`."""
    for child in children_of(rt):
        try:
            words = Path(f'/proc/{child}/cmdline').read_bytes().split(b'\0')
            if words[0].endswith(b'/rattle') and b'no function' in words:
                os.kill(child, signal.SIGTERM)
        except OSError:
            pass  # it has ended


def kept_code(crate: Path, words: list, room: Path, to_its_end: bool = False) -> Path:
    """The code that a command of the kit makes of a crate. It is ended as soon as the code is whole, or works on."""
    kept, said, place = room / f'{crate.name}.bc', room / f'{crate.name}.said', room / crate.name
    place.mkdir()
    with open(said, 'wb') as out:
        running = subprocess.Popen(words, cwd=crate, stdin=subprocess.DEVNULL, stdout=out, stderr=out,
                                   env={**os.environ, 'TMPDIR': str(place)})
        try:
            while running.poll() is None and (to_its_end or not kept.exists()):
                time.sleep(PAUSE)
                end_hint(running.pid)
                for path in whole_code(place):
                    if not kept.exists():
                        os.link(path, kept)
        finally:
            if running.poll() is None:
                USED.append(used_below(running.pid))
                running.terminate()
            status = running.wait()
    if not kept.exists() or to_its_end and status:
        raise Fault(f'{Path(words[0]).name} {words[1]} in {crate.name}:\n{said.read_text(errors="replace").strip()}')
    return kept


def exports() -> dict[str, list[str]]:
    """The functions that mir_c exports, each with the types of its parameters."""
    text = (CRATES / 'mir_c/src/lib.rt').read_text()
    return {name: re.findall(r'\w+: ([^,\n]+)', row) for name, row in EXPORT.findall(text)}


def scratch_crate(room: Path, name: str, crates: list[str]) -> Path:
    """The folder of a crate of this name that uses what these crates use, in a repository of its own beside copies of all
    crates. Its sources are still to be written."""
    top = room / 'scratch'
    for path in CRATES.glob('*/src'):
        for part in ('src', 'specs'):
            if (path.parent / part).is_dir():
                shutil.copytree(path.parent / part, top / 'crates' / path.parent.name / part)
    listed = (TOP / 'crates.txt').read_text()
    uses = dict.fromkeys(one for crate in crates for one in uses_of(listed, crate) if one not in crates)
    (top / 'crates.txt').write_text(f'{listed}{name}: {" ".join(uses)}\n')
    (top / 'crates' / name / 'src').mkdir(parents=True)
    return top / 'crates' / name


def put_module(crate: str, root: str, source: Path, crates: list[str]) -> None:
    """Puts a crate into the sources of another as a module of its name; `root` is its first file. Calls of itself, and of
    crates that stand there too, lead to the modules."""
    place, others = source / crate, '|'.join(crates)
    shutil.copytree(CRATES / crate / 'src', place)
    (place / root).rename(place / 'mod.rt')
    for path in place.rglob('*.rt'):
        text = re.sub(r'(?m)^#!\[.*\]$', '', path.read_text())
        text = re.sub(r'\bcrate::', f'crate::{crate}::', text)
        path.write_text(re.sub(rf'\buse ({others})::', r'use crate::\1::', text))


def unlisted(crate: str) -> list[str]:
    """The crates that the sources of a crate use and that its line in crates.txt does not have."""
    listed = (TOP / 'crates.txt').read_text()
    texts = [path.read_text() for path in sorted((CRATES / crate / 'src').rglob('*.rt'))]
    used = {name for text in texts for name in re.findall(r'(?m)^ *(?:pub(?:\(\w+\))? )?use (\w+)::', text)}
    return sorted(name for name in used - {crate, *uses_of(listed, crate)} if (CRATES / name).is_dir())


def crates_with_tests() -> list[str]:
    """The crates that have tests."""
    listed = re.findall(r'^(\w+)\b.*:', (TOP / 'crates.txt').read_text(), re.MULTILINE)
    return [name for name in listed
            if any('#[test]' in path.read_text() for path in (CRATES / name / 'src').rglob('*.rt'))]


def crate_of_all(room: Path, tested: list[str]) -> Path:
    """The folder of a crate that has as modules the programs and these crates with their tests, and the exports of mir_c,
    so that what they share is read once. As by itself, a tested crate may use what its own line in crates.txt has and
    nothing else. The test at the top calls all that is no test, so that it is there."""
    for crate in tested:
        if unlisted(crate):
            raise Fault(f'{crate} uses {", ".join(unlisted(crate))}, which its line in crates.txt does not have')
    modules = [*PROGRAMS, *tested]
    made = scratch_crate(room, SCRATCH, ['mir_c', *modules])
    for crate in modules:
        put_module(crate, 'main.rt' if crate in PROGRAMS else 'lib.rt', made / 'src', modules)
    for name in PROGRAMS:
        path = made / 'src' / name / 'mod.rt'
        path.write_text(path.read_text().replace('\nfn main(', '\npub fn main('))
    calls = ''.join(f'    let _status = {name}({", ".join(VALUES[kind] for kind in kinds)});\n'
                    for name, kinds in exports().items())
    heads = ''.join(f'pub mod {name};\n' for name in modules)
    first, second = PROGRAMS
    text = (CRATES / 'mir_c/src/lib.rt').read_text().replace('use mir_call', f'{heads}use mir_call', 1)
    (made / 'src/lib.rt').write_text(f"""{text}
#[test]
fn {ALL}(rt: HostRuntime) -> std::process::ExitCode {{
{calls}    if _status == 0 {{ {first}::main(rt) }} else {{ {second}::main(rt) }}
}}
""")
    return made


def tried_code(room: Path, tested: list[str]) -> bytes:
    """The code for LLVM, as text, that `rt try` makes of the programs, of the library for C, and of the tests of these
    crates."""
    code = kept_code(crate_of_all(room, tested), ['rt', 'try', '--test'], room)
    return clang(*TARGET, '-S', '-emit-llvm', '-O0', '-x', 'ir', code, '-o', '-')


def with_exports(text: bytes) -> bytes:
    """The code with the exports of the library, which can be called from elsewhere."""
    for name in (name.encode() for name in exports()):
        inner = b'@"%s::%s"' % (SCRATCH.encode(), name)
        head = b'\ndefine internal noundef i8 %s(' % inner
        if head not in text:
            raise Fault(f'the code of {SCRATCH} has no {name.decode()}')
        text = text.replace(head, b'\ndefine zeroext i8 @%s(' % name).replace(inner, b'@' + name)
    return text


def with_programs(text: bytes, names: list[str]) -> bytes:
    """The code with a function `main_of_NAME` for each of these programs: copies of the `main` of the tests, and of what
    the kit has around a test, with the program in the place of the test."""
    own, copies = f'{SCRATCH}::{ALL}'.encode(), []
    heads = b'\ndefine i32 @main(', b'\ndefine internal noundef i32 @"%s+run"(' % own
    if not all(head in text for head in heads):
        raise Fault(f'the code of {SCRATCH} has not what the kit puts around a test')
    main, run = (text[text.index(head):text.index(head) + 100_000].partition(b'\n}\n')[0] + b'\n}\n' for head in heads)
    for name in (name.encode() for name in names):
        called = b'@"%s::%s::main"' % (SCRATCH.encode(), name)
        copies.append(re.sub(rb'@"[^"]*\+tests"', called[:-1] + b'+run"', main.replace(b'@main(', b'@main_of_%s(' % name)))
        copies.append(run.replace(b'@"%s+run"' % own, called[:-1] + b'+run"').replace(b'@"%s"' % own, called))
    return text.replace(heads[0], b'\ndefine internal i32 @main(') + b''.join(copies)


# A name in code that a crate or the kit gave, and a constant of it, which stands in one line.
NAME = re.compile(rb'@(?:"[^"]*"|static\.\d+|\w+)')
CONSTANT = re.compile(rb'(?m)^(@static\.\d+) = (private unnamed_addr constant .*)\n')


def parts_of(text: bytes) -> tuple[bytes, dict[bytes, bytes]]:
    """Code without its functions, and these by their names."""
    outside, functions = [], {}
    for part in text.split(b'\ndefine ')[1:]:
        end = part.index(b'\n}\n') + 3
        functions[NAME.search(part)[0]] = b'define ' + part[:end]
        outside.append(part[end:])
    return text[:text.index(b'\ndefine ') + 1] + b''.join(outside), functions


def callees_first(functions: dict[bytes, bytes], roots: list[bytes]) -> list[bytes]:
    """The functions that these roots come to, each behind those that it names, but for circles."""
    found, seen, open_ones = [], set(roots), [(name, None) for name in roots]
    while open_ones:
        name, named = open_ones.pop()
        if named is None:
            named = iter(dict.fromkeys(NAME.findall(functions[name])))
        for one in named:
            if one in functions and one not in seen:
                seen.add(one)
                open_ones += [(name, named), (one, None)]
                break
        else:
            found.append(name)
    return found


def merged(text: bytes, roots: list[str]) -> bytes:
    """The code that these functions come to, in which functions with the same body are one: of what the kit makes for a
    crate, a tenth of the functions and less than half of the text. At each place where a check may fail it has a function
    of its own, all alike, and a list of each type has all its functions, also where two types have the same parts."""
    outside, functions = parts_of(text)
    one_of, bodies, named, kept = {}, {}, set(), []
    for name, value in CONSTANT.findall(outside):
        one_of[name] = bodies.setdefault(value, name)
    for name in callees_first(functions, [b'@' + root.encode() for root in roots]):
        body = NAME.sub(lambda found: one_of.get(found[0], found[0]), functions[name])
        found = name
        if body.startswith(b'define internal ') and name not in named:
            found = bodies.setdefault(body.replace(name, b'@'), name)
        one_of[name] = found
        if found == name:
            # what a circle comes back to keeps its name
            named.update(one for one in NAME.findall(body) if one not in one_of)
            kept.append(body)
    return NAME.sub(lambda found: one_of.get(found[0], found[0]), outside) + b'\n'.join(kept)


def uses_of(listed: str, crate: str) -> list[str]:
    """The crates and the libraries of the kit that a crate names in the text of crates.txt."""
    found = re.search(rf'^{crate}(?: [\w =]*)?:(.*)', listed, re.MULTILINE)
    return found[1].split('#')[0].split() if found else []


def below(listed: str, crate: str) -> list[str]:
    """The crates of the repository that a crate stands on, each once."""
    found: list[str] = []
    for name in uses_of(listed, crate):
        if re.search(rf'^{name}\b.*:', listed, re.MULTILINE):
            found += [one for one in [*below(listed, name), name] if one not in found]
    return found


def over_gate(crate: Path, to: Path) -> list:
    """The words that build a static library over the libraries that `rt ci` has proved and left in the crates' out/. `rt
    lib` does not take these: it proves them again, unless `rt check` has kept its work on them. Where it has, in this
    checkout, `rt ci` puts that work back in the place of its own, with a stamp of what it is of, and `rt lib` takes it."""
    listed, libraries = (crate.parent.parent / 'crates.txt').read_text(), kit() / 'rattle'
    own = below(listed, crate.name)
    if any((crate.parent / name / 'out/rlib/stamp').exists() for name in own):
        return ['rt', 'lib']
    places = {name: crate.parent / name / 'out/rlib' / f'{name}.rlib' for name in own}
    lacking = [name for name, path in places.items() if not path.exists()]
    if lacking:
        raise Fault(f'{crate.name}: rt ci has left no library {lacking[0]}')
    direct = uses_of(listed, crate.name)
    of_kit = ['std', *(name for name in direct if name not in own)]
    words = [kit() / 'bin/rattle', 'build', '--crate-name', crate.name, 'src/lib.rt']
    for name in of_kit:
        words += ['--extern', f'{name}={kit()}/rlibs/{name}.rlib']
    words += ['-L', f'dependency={kit()}/rlibs']
    for name in (name for name in direct if name in own):
        words += ['--extern', f'{name}={places[name]}']
    for path in places.values():
        words += ['-L', f'dependency={path.parent}']
    return [*words, '--antt-project', libraries / 'logic/antt-project.json', '--logic-built', kit() / 'logic_built',
            '--links', f'{crate.name}=', '--crate-type', 'staticlib', '--jobs', '1', '--toolchain', kit() / 'toolchain',
            '--backend', 'llvm', '-o', to]


def compiled(code: Path, to: Path, *flags: str) -> Path:
    """The object file that clang makes of code."""
    clang(*TARGET, *flags, '-x', 'ir', '-c', code, '-o', to)
    return to


def linker() -> list[str]:
    """The words that call the C compiler: those of CC, as `rt` has it, or else `cc` or `clang`."""
    words = shlex.split(os.environ.get('CC') or '') or ['cc' if shutil.which('cc') else 'clang']
    if shutil.which(words[0]) is None:
        raise Fault(f'there is no C compiler {words[0]} here: set CC')
    return words


def linked(made: Path, name: str, to: Path) -> Path:
    """The program of this crate that an object file is with the C code of the kit."""
    ran([*linker(), made, *(kit() / 'c' / name for name in ('libos_c.a', 'liblibc_c.a')), '-lm', '-Wl,--gc-sections',
         f'-Wl,--defsym=main=main_of_{name}', '-o', to])
    return to


def linked_tests(made: Path, to: Path) -> Path:
    """The program of tests that an object file is, with the kit's checks of addresses."""
    c = kit() / 'c'
    ran([*linker(), made, '-Wl,--whole-archive', c / 'asan.a', '-Wl,--no-whole-archive', c / 'libos_c.a', c / 'liblibc_c.a',
         *('-lm -ldl -lpthread -lrt -Wl,--gc-sections'.split()), '-o', to])
    return to


def archive(objects: list[Path], room: Path, to: Path) -> Path:
    """A static library of object files, or of those in other libraries, with the kit's calls of the heap."""
    tool, parts = kit() / 'toolchain/bin/llvm-ar', []
    for at, path in enumerate([*objects, kit() / 'c/liblibc_c.a']):
        if path.suffix == '.a':
            place = room / f'members{at}'
            place.mkdir()
            ran([tool, 'x', '--output', place, path])
            parts += sorted(place.iterdir())
        else:
            parts.append(path)
    ran([tool, 'rcs', to, *parts])
    return to


def shared(library: Path, to: Path) -> Path:
    """The shared library of a static one, which needs the C library alone."""
    ran([*linker(), '-shared', '-Wl,-z,defs', *(f'-Wl,-u,{name}' for name in exports()), library, '-o', to])
    return to


def answers(program: Path, crate: Path) -> bool:
    """Whether a program writes for the stored run of its crate what is to be written."""
    words = (crate / 'args').read_text().split() if (crate / 'args').exists() else []
    with open(crate / 'stdin', 'rb') as given:
        done = subprocess.run([program, *words], stdin=given, stdout=subprocess.PIPE)
    return done.returncode == 0 and done.stdout == (crate / 'stdout').read_bytes()
