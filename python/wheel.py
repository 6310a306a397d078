#!/usr/bin/env python3
"""Makes the wheel of Curspan for Python out of the library that tools/curspan-lib built: cc compiles the extension, and Python's own modules do
the rest. It is what `pip` asks by pyproject.toml, too."""
import argparse
import base64
import hashlib
import os
import pathlib
import re
import shlex
import subprocess
import sys
import sysconfig
import tempfile
import time
import zipfile

HERE = pathlib.Path(__file__).resolve().parent
ROOT = HERE.parent
THIS = 'x86_64-unknown-linux-gnu'
HEADERS = pathlib.Path(sysconfig.get_path('include'))
EXTENSION = 'curspan/_curspan.abi3.so'
PYTHON = 'cp39-abi3'
OPTIONS = '-std=c99 -O2 -fPIC -fvisibility=hidden -Wall -Wextra'.split()


def version():
    return re.search(r'#define CURSPAN_VERSION "(.*)"', (ROOT / 'include/curspan.h').read_text())[1]


def command(name, default):
    return shlex.split(os.environ.get(name, default))


def multiarch(target):
    """A target as the folders and tools of Debian name it."""
    return target.replace('unknown-', '')


def tool(target, name):
    """A tool for a target: cc, strip or objdump."""
    if target == THIS:
        return command('CC', 'cc') if name == 'cc' else [name]
    return [f'{multiarch(target)}-{"gcc" if name == "cc" else name}']


def run(*words):
    """Runs a command, and ends with what it said where it fails."""
    words = [str(word) for word in words]
    try:
        done = subprocess.run(words, capture_output=True, text=True, check=False)
    except FileNotFoundError:
        sys.exit(f'wheel: there is no {words[0]}')
    if done.returncode:
        sys.exit(f'wheel: {shlex.join(words)}\n{done.stdout}{done.stderr}')
    return done.stdout


def link(to, shared=False, target=THIS):
    """Compiles and links the extension, with the archive, or with the shared library."""
    library = ROOT / 'build' / ('' if target == THIS else target) / ('libcurspan.so' if shared else 'libcurspan.a')
    if not library.exists():
        sys.exit(f'wheel: there is no {library}: {"tools/curspan-lib" if target == THIS else "tools/build_for " + target} builds it')
    if not (HEADERS / 'Python.h').exists():
        sys.exit(f"wheel: {sys.executable} has no headers in {HEADERS}: Debian's are in python3-dev")
    with tempfile.TemporaryDirectory() as work:
        # Debian has what depends on the processor in a folder for each: with 64 bits it is the same
        os.symlink(HEADERS.parent / multiarch(THIS), f'{work}/{multiarch(target)}')
        objects = []
        for source in sorted((HERE / 'src').glob('*.c')):
            objects.append(f'{work}/{source.stem}.o')
            run(*tool(target, 'cc'), *OPTIONS, *command('CFLAGS', ''), f'-ffile-prefix-map={ROOT}=.', '-I', ROOT / 'include', '-I', HEADERS,
                '-I', work, '-c', source, '-o', objects[-1])
        run(*tool(target, 'cc'), '-shared', '-Wl,--exclude-libs,ALL', '-Wl,-z,relro,-z,now', *command('LDFLAGS', ''), *objects, library, '-o', to)
    run(*tool(target, 'strip'), '--strip-unneeded', '--remove-section=.comment', to)


def oldest_glibc(binary, target):
    """The oldest glibc that has all that a binary takes of it, as two numbers."""
    taken = re.findall(r'GLIBC_(\d+)\.(\d+)', run(*tool(target, 'objdump'), '-T', binary))
    return max((int(major), int(minor)) for major, minor in taken)


def metadata():
    """What an index says of the package, and its page."""
    return (f'Metadata-Version: 2.1\nName: curspan\nVersion: {version()}\nSummary: Windows, panels and pads of curses, as proved calls\n'
            'License: MIT OR Apache-2.0\nRequires-Python: >=3.9\nClassifier: Operating System :: POSIX :: Linux\n'
            'Classifier: Programming Language :: Python :: 3\nClassifier: Typing :: Typed\nDescription-Content-Type: text/markdown\n\n'
            + (ROOT / 'docs/python.md').read_text()).encode()


def info():
    """The folder of what is said of the package."""
    return f'curspan-{version()}.dist-info'


def sources():
    """The files of the package but the extension, by their names in it."""
    return {f'curspan/{path.name}': path.read_bytes() for path in sorted((HERE / 'curspan').iterdir()) if path.suffix in ('.py', '.pyi', '.typed')}


def documents():
    """What goes to share/doc: the pages, and the examples."""
    folder = f'curspan-{version()}.data/data/share/doc/python-curspan'
    pages = {f'{folder}/{name}': ROOT / 'docs' / name for name in ('python.md', 'PROOFS.md', 'DEFINITIONS.md', 'TERMINALS.md')}
    examples = {f'{folder}/examples/{path.name}': path for path in sorted((ROOT / 'examples/python').iterdir()) if path.is_file()}
    return {name: path.read_bytes() for name, path in {**pages, **examples}.items()}


def with_record(files):
    """The files, and a list of them with their sums."""
    def row(name, data):
        return f'{name},sha256={base64.urlsafe_b64encode(hashlib.sha256(data).digest()).rstrip(b"=").decode()},{len(data)}\n'
    record = f'{info()}/RECORD'
    return {**files, record: (''.join(row(*it) for it in files.items()) + f'{record},,\n').encode()}


def write_zip(path, files):
    """A wheel, whose files have one time, so that the same files make the same bytes. A zip has no time before 1980."""
    moment = time.gmtime(max(int(os.environ.get('SOURCE_DATE_EPOCH', 0)), 315532800))[:6]
    with zipfile.ZipFile(path, 'w') as wheel:
        for name, data in files.items():
            entry = zipfile.ZipInfo(name, moment)
            entry.external_attr = (0o100755 if name.endswith('.so') else 0o100644) << 16
            wheel.writestr(entry, data, zipfile.ZIP_DEFLATED, 9)


def tag_of(extension, target):
    """Which Pythons and systems take the extension."""
    return '{}-manylinux_{}_{}_{}'.format(PYTHON, *oldest_glibc(extension, target), target.partition('-')[0])


def name_of(tag):
    return f'curspan-{version()}-{tag}.whl'


def pack(folder, extension, added, licences, target=THIS):
    """Makes the wheel in a folder of an extension, with some files beside what is said of the package, and with licences of what is linked in,
    each named by its folder too, and answers its name."""
    tag = tag_of(extension, target)
    name = name_of(tag)
    about = {'METADATA': metadata(), 'WHEEL': f'Wheel-Version: 1.0\nGenerator: curspan\nRoot-Is-Purelib: false\nTag: {tag}\n'.encode(),
             **{f'licenses/{path.name}': path.read_bytes() for path in (ROOT / 'LICENSE-APACHE', ROOT / 'LICENSE-MIT')},
             **{f'licenses/linked/{path.parent.name}/{path.name}': path.read_bytes() for path in map(pathlib.Path, licences)},
             **{path.name: path.read_bytes() for path in map(pathlib.Path, added)}}
    said = {f'{info()}/{file}': data for file, data in about.items()}
    files = {**sources(), EXTENSION: pathlib.Path(extension).read_bytes(), **documents(), **said}
    write_zip(pathlib.Path(folder) / name, with_record(files))
    return name


def build_wheel(wheel_directory, config_settings=None, metadata_directory=None):
    """What `pip` calls: makes the wheel in a folder, and answers its name."""
    del config_settings, metadata_directory
    with tempfile.TemporaryDirectory() as work:
        extension = os.path.join(work, 'extension.so')
        link(extension)
        return pack(wheel_directory, extension, [], [])


def write_files(folder):
    """Writes the package's files but the extension below a folder, and what is said of it."""
    for name, data in {**sources(), f'{info()}/METADATA': metadata()}.items():
        path = pathlib.Path(folder) / name
        path.parent.mkdir(parents=True, exist_ok=True)
        path.write_bytes(data)


def main():
    parser = argparse.ArgumentParser(prog='wheel.py', description=__doc__)
    jobs = parser.add_subparsers(dest='job', required=True)
    job = jobs.add_parser('build', help='make the wheel in a folder')
    job.add_argument('folder')
    job = jobs.add_parser('link', help='compile and link the extension alone')
    job.add_argument('--target', default=THIS)
    job.add_argument('--shared', action='store_true', help='with the shared library, in place of the archive')
    job.add_argument('file')
    job = jobs.add_parser('files', help='write all but the extension below a folder')
    job.add_argument('folder')
    job = jobs.add_parser('name', help='print the name of the wheel of an extension')
    job.add_argument('--target', default=THIS)
    job.add_argument('extension')
    job = jobs.add_parser('pack', help='make the wheel of an extension that was linked')
    job.add_argument('--target', default=THIS)
    job.add_argument('--add', action='append', default=[], metavar='FILE', help='put a file beside what is said of the package')
    job.add_argument('--licence', action='append', default=[], metavar='FILE', help='put a licence of what is linked in beside the others')
    job.add_argument('extension')
    job.add_argument('folder')
    words = parser.parse_args()
    if words.job == 'build':
        print(pathlib.Path(words.folder) / build_wheel(words.folder))
    elif words.job == 'link':
        link(words.file, words.shared, words.target)
    elif words.job == 'files':
        write_files(words.folder)
    elif words.job == 'name':
        print(name_of(tag_of(words.extension, words.target)))
    else:
        print(pathlib.Path(words.folder) / pack(words.folder, words.extension, words.add, words.licence, words.target))


if __name__ == '__main__':
    main()
