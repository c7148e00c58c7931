"""Makes WebAssembly of the code for LLVM of a program or of the library for C."""

import shutil
import subprocess
import sys
from pathlib import Path

HERE = Path(__file__).resolve().parent

# What the kit's clang and Debian's wasm-opt are told.
TARGET = ('--target=wasm64-unknown-unknown', '-mbulk-memory')
SHIM = ('-mcpu=mvp', '-O2', '-ffreestanding', '-fno-builtin', '-Wno-main', '-Wno-incompatible-library-redeclaration')
LINK = ('-mwasm64', '--no-entry', '-z', 'stack-size=8388608', '--gc-sections', '--strip-all')
LOWER = ('--enable-memory64', '--enable-bulk-memory', '--enable-sign-ext', '--enable-mutable-globals',
         '--enable-nontrapping-float-to-int', '--memory64-lowering', '-O2')


class NotMade(Exception):
    """Why a module could not be made."""


def ran(words: list) -> None:
    """Runs a command to its end."""
    try:
        done = subprocess.run(words, stdin=subprocess.DEVNULL, stdout=subprocess.PIPE, stderr=subprocess.STDOUT)
    except OSError as error:
        raise NotMade(f'{words[0]}: {error.strerror}') from None
    if done.returncode:
        raise NotMade(f'{words[0]}: {done.stdout.decode("utf-8", "replace")[:2000]}')


def clang() -> Path:
    """The clang of the kit."""
    return Path(shutil.which('rt') or 'rt').resolve().parent.parent / 'toolchain/bin/clang'


def number_at(code: bytes, at: int) -> tuple[int, int]:
    """A number of a module, and what stands behind it."""
    value = shift = 0
    while True:
        value |= (code[at] & 127) << shift
        at, shift = at + 1, shift + 7
        if not code[at - 1] & 128:
            return value, at


def without_table(code: bytes) -> bytes:
    """A module without its section of tables: the linker makes an empty one, which older engines refuse."""
    kept, at = code[:8], 8
    while at < len(code):
        size, start = number_at(code, at + 1)
        if code[at] == 9:
            raise NotMade('there are elements of a table')
        kept += code[at:start + size] if code[at] != 4 else b''
        at = start + size
    return kept


def module_of(code: Path, exports: list[str], room: Path) -> bytes:
    """The module of the code for LLVM in a file. With no names to export it is a whole program."""
    if shutil.which('wasm-opt') is None:
        raise NotMade('wasm-opt is not here (the Debian package binaryen)')
    linker, shim, made, raw, lowered = (room / name for name in ('wasm-ld', 'shim.o', 'code.o', 'raw.wasm', 'low.wasm'))
    linker.unlink(missing_ok=True)
    linker.symlink_to(clang())
    whole = [] if exports else ['-DWHOLE_PROGRAM']
    ran([clang(), *TARGET, *SHIM, *whole, '-c', HERE / 'shim.c', '-o', shim])
    ran([clang(), *TARGET, '-O1', '-x', 'ir', '-c', code, '-o', made])
    ran([linker, *LINK, *(f'--export={name}' for name in exports), shim, made, '-o', raw])
    raw.write_bytes(without_table(raw.read_bytes()))
    ran(['wasm-opt', *LOWER, raw, '-o', lowered])
    return lowered.read_bytes()


if __name__ == '__main__':
    Path(sys.argv[2]).write_bytes(module_of(Path(sys.argv[1]), sys.argv[4:], Path(sys.argv[3])))
