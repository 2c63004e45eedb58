#!/usr/bin/env python3
"""Brings the repository's own definitions, lemmas and fields to the spelling of today's Rattle.

    tools/respell.py [FOLDER]

Run once, after the toolchain's own port.py, at the top of the repository or of FOLDER. tools/respell.txt has a line for each
name: the old spelling, the new one, and `field` where it names a field of a record, or `page` where port.py has turned it
in the code already. Words are in snake case, facts and types in camel case; a dash stays where it joins the names of two
definitions. In .antt files, in the clauses of .rt files and in must-fail edits each such name is turned; in comments, and in
the pages of docs/, only between backticks. Strings, and the names that the checker makes (after `c.`, `l.`, `w.` or `goal.`),
stay, but for fields.
"""
import pathlib
import re
import sys

TABLE = pathlib.Path(__file__).with_name('respell.txt')
NAME = re.compile(r"[^\s(){}\[\],.;:«»\"|⌜⌝∥`]+")
MADE = {'c', 'l', 'w', 'g', 'goal', 'given', 'was', 'v'}
TICKED = re.compile(r'`[^`\n]+`')
PART = {
    '.antt': re.compile(r'(?P<comment>--[^\n]*)'),
    '.rt': re.compile(r'(?P<comment>//[^\n]*)|(?P<string>b?"(?:\\.|[^"\\])*"|b?\'(?:\\.|[^\'\\])\')', re.S),
}


def read_table():
    lines = [line.split() for line in TABLE.read_text(encoding='utf-8').splitlines() if line]
    mine = {line[0]: line[1] for line in lines if line[2:] != ['page']}
    return mine, {line[0]: line[1] for line in lines}, {line[0] for line in lines if line[2:] == ['field']}


def turned(text, table, fields):
    """The text with each name of the table turned."""

    def turn(match):
        name = match.group(0)
        if name not in table:
            return name
        before = text[:match.start()]
        if before.endswith('.') and name not in fields:
            chain = re.search(r"([^\s(){}\[\],;:]+)\.$", before)
            if chain and chain.group(1).split('.')[0] in MADE:
                return name
        return table[name]

    return NAME.sub(turn, text)


def ticked(text, table, fields):
    return TICKED.sub(lambda match: turned(match.group(0), table, fields), text)


def turned_file(text, kind, table, fields):
    if kind not in PART:
        return ticked(text, table, fields)
    out, at = [], 0
    # A comment dash of antt needs a space or a line's start before it, as in `-- text`.
    for part in PART[kind].finditer(text):
        if kind == '.antt' and part.start() > 0 and text[part.start() - 1] not in ' \n':
            continue
        out.append(turned(text[at:part.start()], table, fields))
        comment = part.groupdict().get('comment')
        out.append(ticked(part.group(0), table, fields) if comment else part.group(0))
        at = part.end()
    out.append(turned(text[at:], table, fields))
    return ''.join(out)


def main():
    top = pathlib.Path(sys.argv[1] if len(sys.argv) > 1 else '.')
    mine, every, fields = read_table()
    for path in sorted(top.rglob('*')):
        kind = path.suffix
        if '.git' in path.parts or 'out' in path.parts or 'target' in path.parts or not path.is_file():
            continue
        if kind not in ('.antt', '.rt', '.edit', '.md'):
            continue
        text = path.read_text(encoding='utf-8')
        table = mine if kind in PART else every
        new = turned_file(text, '.rt' if kind == '.edit' else kind, table, fields)
        if new != text:
            path.write_text(new, encoding='utf-8')


main()
