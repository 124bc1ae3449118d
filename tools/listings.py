#!/usr/bin/env python3
"""listings.py: what the documents show is what the programs do.

- README.md, listings marked `rattle`: each statement stands, in this order, in crates/example/src/main.rt, which is proved and run, or in
  crates/generator/src/lib.rt, which is proved.
- README.md, listings marked `sh`: each line with a comment `prints "a", "b"` is run, and must write these lines.
- examples/README.md: each file of the table is given to ./pair, which must write the lines of the last column; so must
  outside/plain_lines.py, the plain meaning. The last line that it shows for load.txt is that of ./pair --load and of outside/plain_load.py,
  and all else that the two write for it is equal too.
- docs/TOP_DIGITS.md: each page is what the command above it writes.
Rust listings are doc tests of rust/. Exit code 1 where anything differs."""
import os
import re
import subprocess
import sys

ROOT = os.path.dirname(os.path.dirname(os.path.abspath(__file__)))
sys.path.insert(0, os.path.join(ROOT, 'outside'))
from plain_lines import output_for  # noqa: E402
from plain_load import output_for as load_output_for  # noqa: E402

wrong = []


def text_of(*path):
    with open(os.path.join(ROOT, *path), encoding='utf-8') as f:
        return f.read()


def blocks(text, language):
    return re.findall(r'^```%s\n(.*?)^```$' % language, text, re.M | re.S)


def without_layout(code):
    """Code without comments and blanks, and without the comma before a closing bracket that the formatter sets."""
    code = re.sub(r'//.*', '', code)
    return re.sub(r',(?=[)}\]])', '', re.sub(r'\s+', '', code))


def statements(block):
    return [s for s in without_layout(block).split(';') if s]


def check_rattle(readme):
    program = without_layout(text_of('crates', 'example', 'src', 'main.rt') + text_of('crates', 'generator', 'src', 'lib.rt'))
    count = 0
    for block in blocks(readme, 'rattle'):
        at = 0
        for statement in statements(block):
            found = program.find(statement, at)
            if found < 0:
                wrong.append('README.md: not in crates/example or crates/generator, or in another order: ' + statement)
            else:
                at = found + len(statement)
            count += 1
    return count


def run(command, standard_input=None):
    done = subprocess.run(command, shell=isinstance(command, str), cwd=ROOT, input=standard_input, stdout=subprocess.PIPE, check=True)
    return done.stdout


def check_lines(where, shown, written):
    if ''.join(line + '\n' for line in shown).encode() != written:
        wrong.append('%s: shown %s, written %r' % (where, shown, written))


def check_shell(readme):
    count = 0
    for block in blocks(readme, 'sh'):
        for line in block.splitlines():
            command, _, comment = line.partition('#')
            shown = re.search(r'prints ((?:"[^"]*"(?:, )?)+)', comment)
            if shown:
                check_lines('README.md, ' + command.strip(), re.findall(r'"([^"]*)"', shown.group(1)), run(command))
                count += 1
    return count


def check_examples():
    rows = re.findall(r'^\| `(\S+\.txt)` \|.*\| ([^|]*) \|$', text_of('examples', 'README.md'), re.M)
    for name, shown in rows:
        lines = re.findall(r'`([^`]*)`', shown)
        with open(os.path.join(ROOT, 'examples', name), 'rb') as f:
            data = f.read()
        check_lines('examples/' + name, lines, run(['./pair'], data))
        check_lines('examples/%s by plain_lines.py' % name, lines, output_for(data))
    return len(rows)


def check_load():
    shown = re.findall(r'^`(\S+\.txt)` has .* its last line of output is `(\d+)`\.$', text_of('examples', 'README.md'), re.M)
    for name, last in shown:
        with open(os.path.join(ROOT, 'examples', name), 'rb') as f:
            data = f.read()
        written = run(['./pair', '--load'], data)
        check_lines('examples/' + name, [last], written[written.rfind(b'\n', 0, -1) + 1 :])
        if written != load_output_for(data):
            wrong.append('examples/%s: ./pair --load and plain_load.py differ' % name)
    return len(shown)


def check_pages():
    pages = re.findall(r'^`([^`\n]*)` prints:\n\n```text\n(.*?)^```$', text_of('docs', 'TOP_DIGITS.md'), re.M | re.S)
    for command, shown in pages:
        check_lines('docs/TOP_DIGITS.md, ' + command, shown.splitlines(), run(command))
    return len(pages)


def main():
    readme = text_of('README.md')
    counts = (check_rattle(readme), check_shell(readme), check_examples(), check_load(), check_pages())
    for line in wrong:
        print(line)
    if wrong or 0 in counts:
        sys.exit(1)
    print('listings: %d statements, %d commands, %d example files, %d load and %d pages are as shown' % counts)


main()
