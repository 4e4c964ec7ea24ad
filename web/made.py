"""What web/index.html is made of: digests of the library's sources and of the page's, for web/build, which puts them in, and web/fresh, which looks."""
import hashlib
import os
import re

LIBRARY = 'interface'
# What puts a page together beside web/src: another build is another page.
BUILDERS = ['web/build', 'web/made.py']
PAGE = 'web/index.html'


def crates():
    """crates.txt: each crate with its own line and what it uses"""
    with open('crates.txt', encoding='utf-8') as file:
        lines = [re.fullmatch(r'(\w+)(?: staticlib)?:([\w ]*)', line) for line in file.read().split('\n')]
    return {line[1]: (line[0], line[2].split()) for line in lines if line}


def stood_on(name):
    """A crate and all that it stands on, but for the kit's own, by name"""
    known, wanted, found = crates(), [name], set()
    if name not in known:
        raise LookupError(f'crates.txt has no {name}')
    while wanted:
        crate = wanted.pop()
        if crate in known and crate not in found:
            found.add(crate)
            wanted += known[crate][1]
    return sorted(found)


def files_below(folder):
    found = []
    for place, _, names in os.walk(folder):
        found += [os.path.join(place, name) for name in names]
    return sorted(found)


def digest(parts):
    """sha256 over pairs of a name and bytes, each with its length in front, so that nothing can move from one to the next"""
    sha = hashlib.sha256()
    for name, data in parts:
        for part in (name.encode(), data):
            sha.update(b'%d\n' % len(part) + part)
    return sha.hexdigest()


def contents(files):
    for file in files:
        with open(file, 'rb') as data:
            yield file, data.read()


def library_digest(toolchain):
    """Over what is compiled: the crates that the library stands on, their lines of crates.txt, the header that names what is handed out, and the toolchain"""
    known, parts = crates(), [('toolchain', toolchain.encode())]
    for crate in stood_on(LIBRARY):
        parts.append((f'crates.txt {crate}', known[crate][0].encode()))
        parts += contents(files_below(f'crates/{crate}/src'))
    return digest(parts + list(contents(['include/makhroeng.h'])))


def sources_digest():
    """Over the page's own sources and what puts them together"""
    return digest(contents(files_below('web/src') + BUILDERS))


def version():
    with open('include/makhroeng.h', encoding='utf-8') as header:
        n = int(re.search(r'^#define MAKHROENG_VERSION (\d+)$', header.read(), re.M)[1])
    return f'{n // 10000}.{n // 100 % 100}.{n % 100}'


def functions():
    """What the header declares, by name"""
    with open('include/makhroeng.h', encoding='utf-8') as header:
        return sorted(set(re.findall(r'^\w+ (makhroeng_\w+)\(', header.read(), re.M)))
