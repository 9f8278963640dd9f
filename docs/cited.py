#!/usr/bin/env python3
"""Finds what the documents cite and the repository does not have.

    docs/cited.py [--count]

Prints a line for each citation of something that is missing, then how many there are, and nothing if none is missing. With --count it
always prints the number of citations. The exit status is 1 if something is missing.

It looks at the text in back quotes in README.md, docs/*.md and docs/orders/*.md, indented and fenced text left out, and PORT.md, DESIGN-PASS.md and LOOK-BACK.md
too, which name what stood at another commit:

    X/specs/F  X/specs/F.d  X/specs/F.d.f    a file of the crate X; what it declares; a field or case of that
    X::f  X::m::f  X::f.c                    an item of the crate X, in its module m; a clause `ensures c` of its contract, or a field
    .d  ::f                                  goes on from the citation before: another name of its file or item, another item of its module
    X/must-fail/e  X/weaker/e                a wrong version; another name with a `_` behind it is of the same folder
    E::C                                     a case of an enum
    README.md  bench/..  crates/..  docs/..  a path, where * stands for any name; words behind it are passed over
    F.d  R.f                                 a name of a file F, or a field of R
    Name  a-name                             a word of some source or script, or the name of a file

A name in brackets, or behind `:` or `of`, directly behind a definition is one that its declaration has; behind a folder of definitions it is
a file there. So are those that follow it behind a comma or `and`. A citation goes on within its paragraph, list item or table row only.
Other text in back quotes is passed over.
"""
import re
import sys
from pathlib import Path

root = Path(__file__).resolve().parent.parent
crates = root / 'crates'

NAME = r"[^\W\d][\w·'’\-]*"
END = r"(?![\w·'’\-])"

sources = {path: path.read_text() for end in ('antt', 'rt') for path in crates.rglob('*.' + end) if 'out' not in path.relative_to(crates).parts}
edits = {path.relative_to(crates).with_suffix('').as_posix() for path in crates.rglob('*.edit')}
files = [path for folder in ('bench', 'bindings', 'crates', 'docs', 'examples') for path in (root / folder).rglob('*')]
names = {name for path in files if path.suffix != '.edit' and 'out' not in path.parts for name in (path.name, path.stem)}


def known_words():
    """The words of all sources and scripts, and the names of all files but the edits."""
    scripts = [path.read_text() for path in [*files, *root.glob('*.sh')] if path.suffix in ('.sh', '.py')]
    return names | {word for text in [*sources.values(), *scripts] for word in re.findall(NAME, text)}


words = known_words()


# what stands in front of a name where it is declared: in a definition or proof, in the code
DECLARED = {
    '.antt': r'^( *)(?:(?:pub|unfoldable|abbrev) )*(?:(record|data|mod) (?=NAMEEND)|()(?=NAME(?: :|$)))NAME',
    '.rt': r'^( *)(?:pub )?(?:extern "C" )?(fn|struct|enum|const|mod) NAMEEND',
}


def declaration(path, name):
    """Where a source declares a name: the match up to it, whose first two groups are the indentation and the word in front. None if it
    does not."""
    pattern = DECLARED[path.suffix].replace('END', END).replace('NAME', re.escape(name))
    return re.search(pattern, sources[path], re.M)


def body(path, name):
    """The text of a declaration: its first line, the lines further in, and the clauses of a function of the definitions."""
    found = declaration(path, name)
    if not found:
        return ''
    lines = sources[path][found.end():].split('\n')
    own = rf'{found[1]}(?: |{re.escape(name)}{END}|unfolding |[){{}}])|\s*(?:--|//|$)'
    end = next((at for at, line in enumerate(lines[1:], 1) if not re.match(own, line)), len(lines))
    while end > 1 and re.match(r'\s*(?:--|//|$)', lines[end - 1]):
        end -= 1
    return '\n'.join(lines[:end])


def has_word(text, name):
    return re.search(rf"(?<![\w·\-]){re.escape(name)}{END}", text) is not None


def has_part(path, item, name):
    """Whether an item has a part of this name: a function of the code a clause of its contract, another item a field or a case."""
    found = declaration(path, item)
    part = rf'(?:requires|ensures) {name} \{{' if found and found[2] == 'fn' else rf'(?:pub )?{re.escape(name)}{END}'
    return re.search(rf'^\s+{part}', body(path, item), re.M) is not None


# ---- the kinds of citations. Each function is told the text, what was cited before it (`last`) and whether it is a part of that. It returns
# what is wrong, '' if nothing is, and None if the text is of another kind.

def in_file(cited, last, part):
    """X/specs/F, X/specs/F.d"""
    found = re.fullmatch(r'(?:crates/)?([a-z]\w*/(?:specs|proofs)/[\w/]+)((?:\.[^\s.]+)*)', cited)
    if not found:
        return None
    path = crates / (found[1] + '.antt')
    outer, *inner = [name for name in found[2].split('.')[1:] if name != 'antt'] or ['']
    last.update(path=path, item=None, specs=None, whole=outer and body(path, outer) if path in sources else '')
    if path not in sources:
        return 'no such file' if outer or not path.with_suffix('').is_dir() else ''
    if outer and not declaration(path, outer):
        return 'not declared there'
    return '' if all(has_part(path, outer, name) for name in inner) else f'{outer} has no such part'


def going_on(cited, last, part):
    """.d"""
    found = re.fullmatch(rf'\.({NAME})', cited)
    if not found:
        return None
    path, item = last.get('path'), last.get('item')
    if path not in sources:
        return '' if found[1] in words else 'no such name'
    if item:
        return '' if has_part(path, item, found[1]) else f'{item} has no such part'
    last['whole'] = body(path, found[1])
    return '' if declaration(path, found[1]) else f'not declared in {path.relative_to(crates)}'


def handed_on(path, name):
    """The file of the code that declares a name, where another hands it on: `pub use module::Name;`."""
    found = re.search(rf'^pub use (\w+)::(?:{name}|\{{[^}}]*\b{name}\b[^}}]*\}});', sources[path], re.M)
    return path.parent / (found[1] + '.rt') if found else path


def in_code(cited, last, part):
    """X::f, X::m::f, X::f.c, ::f"""
    found = re.fullmatch(r'([a-z]\w*)?::((?:\w+::)*)(\w+)(?:\.(\w+))?', cited)
    if not found:
        return None
    crate, outer, item, field = found.groups()
    outer = outer.split('::')[:-1]
    if crate:
        folder = crates / crate / 'src'
        last['module'] = next((path for path in (folder / (name + '.rt') for name in (*outer[:1], 'lib', 'main')) if path in sources), None)
    path = last.get('module')
    if path:
        path = last['module'] = handed_on(path, (outer or [item])[0])
    last.update(path=path, item=item, specs=None, whole='')
    if not path:
        return 'no such crate'
    if not all(declaration(path, name) for name in [*outer, item] if name != path.stem):
        return 'no such item'
    return '' if not field or has_part(path, item, field) else f'{item} has no such part'


def edit(cited, last, part):
    """X/must-fail/e, X/weaker/e, and a name behind it"""
    found = re.fullmatch(r'(?:crates/)?([a-z]\w*/(?:must-fail|weaker)/)(\w*)(?:\.edit)?', cited)
    if found:
        last['folder'] = found[1]
        return '' if (crates / found[1]).is_dir() and (not found[2] or found[1] + found[2] in edits) else 'no such edit'
    if 'folder' in last and re.fullmatch(r'[a-z]+_\w+', cited):
        return '' if last['folder'] + cited in edits else f'no such edit in {last["folder"]}'
    return None


def case(cited, last, part):
    """E::C"""
    found = re.fullmatch(r'([A-Z]\w*)::([A-Z]\w*)', cited)
    if not found:
        return None
    return '' if any(has_part(path, *found.groups()) for path in sources if path.suffix == '.rt' and declaration(path, found[1])) else 'no such case'


def any_path(cited, last, part):
    """README.md, bench/.., a command"""
    found = re.match(r'((?:crates|docs|bench|bindings|examples)/\S*|\w+\.(?:md|sh|py|txt))(?: |$)', cited)
    if not found or 'X/' in cited:
        return None
    last.update(whole='', specs=root / found[1] if found[1].endswith('/specs') else None)
    return '' if any(any(folder.glob(found[1])) for folder in (root, root / 'docs')) else 'no such path'


def any_name(cited, last, part):
    """Name, a-name, F.d, R.f"""
    if not re.fullmatch(rf'{NAME}(?:\.{NAME})*', cited):
        return None
    if part and last.get('specs'):
        return '' if last['specs'] / (cited + '.antt') in sources else 'no such file there'
    if part and last.get('whole'):
        return '' if has_word(last['whole'], cited) else 'not in that declaration'
    last.update(path=None, item=None, specs=None, whole='')
    if '.' not in cited or cited in names:
        return '' if cited in words else 'no such name'
    outer, inner = cited.split('.', 1)
    return '' if any(declaration(path, inner) if path.stem == outer else has_part(path, outer, inner) for path in sources) else 'no such name'


KINDS = [in_file, going_on, in_code, edit, case, any_path, any_name]


def wrong_with(cited, last, part):
    """What is wrong with a citation, '' if nothing is; None if the text cites nothing."""
    answers = (kind(cited, last, part) for kind in KINDS)
    return next((answer for answer in answers if answer is not None), None)


def blocks(text):
    """The paragraphs, list items and table rows of a document, each with the number of its first line."""
    text = re.sub(r'^```.*?^```', lambda fenced: '\n' * fenced[0].count('\n'), text, flags=re.M | re.S)
    first, block, code = 1, [], True
    for number, line in enumerate(text.split('\n'), 1):
        code = line.startswith('    ') and code  # indented text is code only behind a blank line
        if not line.strip() or re.match(r'#|\|| *- | *\d+\. ', line):
            yield first, '\n'.join(block)
            first, block = number, []
        block.append('' if code else line)
        code = code or not line.strip()
    yield first, '\n'.join(block)


def citations(block):
    """The citations of a block, each with its place, and whether it is a part of the one before or goes on from such a part."""
    end, part = 0, False
    for found in re.finditer(r'`([^`]+)`', block):
        gap = ' '.join(block[end:found.start()].split())
        part = gap in ('(', ':', 'of') or part and gap in (',', 'and', ', and')
        yield found.start(), found[1].replace('\n', ' '), part
        end = found.end()


def main():
    count, missing = 0, []
    for doc in [root / 'README.md', *(path for path in sorted((root / 'docs').glob('*.md')) if path.name not in ('PORT.md', 'DESIGN-PASS.md', 'LOOK-BACK.md')), *sorted((root / 'docs/orders').glob('*.md'))]:
        for first, block in blocks(doc.read_text()):
            last = {}
            for place, cited, part in citations(block):
                wrong = wrong_with(cited, last, part)
                count += wrong is not None
                if wrong:
                    missing.append(f'{doc.relative_to(root)}:{first + block.count(chr(10), 0, place)}: `{cited}`: {wrong}')
    if missing or '--count' in sys.argv[1:]:
        print(*missing, f'{count} citations, {len(missing)} of something that is missing', sep='\n')
    sys.exit(bool(missing))


main()
