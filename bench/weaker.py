#!/usr/bin/env python3
"""Tries the wrong versions that the gate leaves out, in a copy of the repository, and says what refused each.

    bench/weaker.py [CRATE | CRATE/EDIT]..     all of them, those of a crate, or one

They are the files crates/CRATE/weaker/*.edit, in the format of must-fail/; the first line says what would be wrong. Such an edit is
tried on its crate alone. One that its crate cannot refuse has a line `in: OTHER`, the crate further up that must: OTHER is then proved over
the edited crate. In such an edit `file: ../CRATE/..` names a file of another crate, for a proof that only hands the definition on.

For each edit it prints what it says and the first error: the place, the declaration, and what differs. The last line counts. Exit status 0
if all were refused. It writes nothing in the repository; what is proved there is not proved again.
"""
import os, re, shutil, subprocess, sys, tempfile
from concurrent.futures import ThreadPoolExecutor
from pathlib import Path

root = Path(__file__).resolve().parent.parent
jobs = int(os.environ.get('RT_JOBS') or min(os.cpu_count() or 1, 4))


class BadEdit(Exception):
    pass


def parts(edit):
    """The file, old and new text of each replacement of an edit."""
    file, old = '', ''
    for line in edit.read_text().split('\n'):
        if line.startswith('file: '):
            file = line[6:]
        elif line.startswith('old: '):
            old = line[5:]
        elif line.startswith('new:'):
            yield file, old, line[5:] if line.startswith('new: ') else line[4:]


def other_crate(edit):
    """The crate that must refuse the edit, where that is not its own."""
    named = re.search(r'^in: (\w+)$', edit.read_text(), re.M)
    return named[1] if named else None


def copy_to(folder):
    """A copy of the crates. `rt` takes what is proved of the same files on this machine from where it was proved."""
    shutil.copy(root / 'crates.txt', folder)
    shutil.copytree(root / 'crates', folder / 'crates', ignore=shutil.ignore_patterns('must-fail', 'weaker', 'out'))


def apply(edit, crate):
    """Makes the replacements of an edit in the files of a crate's folder."""
    for file, old, new in parts(edit):
        path = crate / file
        if not path.is_file():
            raise BadEdit(f'there is no file {file}')
        text = path.read_text()
        if not old or text.count(old) != 1:
            raise BadEdit(f'the old text is in {file} {text.count(old) if old else 0} times: {old}')
        path.write_text(text.replace(old, new))


def first_error(said):
    """The first error of a check that is not about a declaration refused before it, and how the two sides differ, where it says so. Where the
    prover makes the proof itself, what it could not show."""
    found = []
    for line in said.split('\n'):
        line = line[:400]
        if found:
            if line.startswith('  computed as far as they go'):
                found.append(line)
            if not line.startswith(' ') or len(found) == 2:
                break
        elif ' error: ' in line and not re.search('was not admitted|was rejected', line) or re.match(r'note: .* it is not proved', line):
            found.append(line)
    return found or ['refused, and no error is named']


def refused_in(edit, other, folder):
    """Proves `other` over a copy with the edit; what refused it, or None."""
    copy_to(folder)
    apply(edit, folder / 'crates' / edit.parent.parent.name)
    said = subprocess.run(['rt', 'check'], cwd=folder / 'crates' / other, stdout=subprocess.PIPE, stderr=subprocess.STDOUT, text=True)
    if said.returncode == 0:
        return None
    below = re.search(r'^rt: the library (\w+) did not build', said.stdout, re.M)
    if below:
        raise BadEdit(f'{other} was not reached: {below[1]} refuses it')
    return first_error(said.stdout)


def tried_above(edit):
    """An edit with a line `in:`, tried in a copy of its own."""
    folder = Path(tempfile.mkdtemp())
    try:
        return refused_in(edit, other_crate(edit), folder)
    except BadEdit as bad:
        return bad
    finally:
        shutil.rmtree(folder)


def tried_alone(edits):
    """The edits that are tried on their crate alone, by `rt must-fail` in one copy; what refused each."""
    folder = Path(tempfile.mkdtemp())
    answers = {}
    try:
        copy_to(folder)
        for edit in edits:
            to = folder / 'crates' / edit.parent.parent.name / 'must-fail'
            to.mkdir(exist_ok=True)
            shutil.copy(edit, to)
        names = sorted({edit.parent.parent.name for edit in edits})
        said = subprocess.run(['rt', 'must-fail', *names], cwd=folder, stdout=subprocess.PIPE, stderr=subprocess.STDOUT, text=True).stdout
        for edit in edits:
            told = re.search(rf'^rt: must-fail {edit.parent.parent.name}/{edit.name}: (.*)', said, re.M)
            if not told:
                answers[edit] = BadEdit('it was not tried: ' + said.strip().split('\n')[-1])
            elif told[1].startswith('refused') or 'that depend' in told[1]:
                # rt calls an edit bad if in a file that it changes a law falls with one before it; that one is what refused it
                answers[edit] = [told[1]]
            elif told[1].startswith('NOT REFUSED'):
                answers[edit] = None
            else:
                answers[edit] = BadEdit(told[1])
    finally:
        shutil.rmtree(folder)
    return answers


def chosen(words):
    """The edits that the words name, all of them where there are none. A word that names none is an error."""
    edits = sorted(root.glob('crates/*/weaker/*.edit'))
    named = {e: {e.parent.parent.name, f'{e.parent.parent.name}/{e.stem}'} for e in edits}
    unknown = set(words).difference(*named.values())
    if unknown:
        sys.exit('\n'.join(f'weaker.py: no such edit: {word}' for word in words if word in unknown))
    return [e for e in edits if not words or named[e].intersection(words)]


def main():
    edits = chosen(sys.argv[1:])
    alone = [e for e in edits if not other_crate(e)]
    above = [e for e in edits if other_crate(e)]
    answers = tried_alone(alone) if alone else {}
    with ThreadPoolExecutor(jobs) as pool:
        answers.update(zip(above, pool.map(tried_above, above)))
    refused = 0
    for edit in edits:
        answer, name = answers[edit], f'{edit.parent.parent.name}/{edit.stem}'
        if answer is None:
            print(f'{name}: NOT REFUSED')
        elif isinstance(answer, BadEdit):
            print(f'{name}: BAD EDIT: {answer}')
        else:
            refused += 1
            print(f'{name}: {edit.read_text().split(chr(10))[0].removeprefix("-- ")}', *('    ' + line for line in answer), sep='\n')
    print(f'{refused} of {len(edits)} refused')
    sys.exit(refused != len(edits))


main()
