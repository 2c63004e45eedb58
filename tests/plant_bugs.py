#!/usr/bin/env python3
"""Plants bugs in the functions of a crate and tells which of them the check does not refuse.

    tests/plant_bugs.py CRATE [BUGS_PER_FUNCTION]

Each pass plants one bug in each function of a copy of the crate at once, and checks the copy by `rt dev`. That is
sound: a function is proved from the contracts of the functions that it calls, not from their bodies. Where a callee
is not proved, the check leaves its callers out; their bugs wait for a later pass. A bug that is still proved is
printed as `survives`: then the contract leaves something free, or the bug changes nothing that can be told.

The repository is copied to a temporary folder, with target/ if there is one, and stays as it is.
"""
import pathlib
import random
import re
import shutil
import subprocess
import sys
import tempfile

FUNCTION = re.compile(r'(?m)^(\s*)(?:pub(?:\([^)]*\))? )?(?:extern "C" )?fn (\w+)')
RESULT = re.compile(r'(?m)^fn ([\w:·]+): (.*)$')
PLACE = re.compile(r'src/([\w/]+\.rt):(\d+)')
PASSES = 8  # for each bug that is asked for, so that callers come to their turn


def plus_one(match):
    return str(int(match.group(1).replace('_', '')) + 1)


# What is replaced, and by what: one operand, operator, constant, case or statement.
BUGS = [
    (r'(?<![<=>!-])<=(?!=)', '<'), (r'(?<=\s)<(?=\s)', '<='), (r'(?<=\s)>(?=\s)', '>='), (r'(?<=\s)>=(?=\s)', '>'),
    (r'==', '!='), (r'!=', '=='), (r'&&', '||'), (r'\|\|', '&&'),
    (r'\+ 1\b', '+ 2'), (r'- 1\b', '- 0'), (r'(?<= )\+ (?=\w)', '- '), (r'(?<= )- (?=\w)', '+ '),
    (r'\.max\(', '.min('), (r'\.min\(', '.max('), (r'\btrue\b', 'false'), (r'\bfalse\b', 'true'),
    (r'\.slope\b(?!\()', '.slack'), (r'\.slack\b(?!\()', '.slope'), (r'\.height\b(?!\()', '.position'),
    (r'\.slope\(\)', '.slack()'), (r'\.slack\(\)', '.slope()'), (r'\.last\(\)', '.slope()'),
    (r'Refusal::(?!BudgetSpent)(\w+)\b(?! ?[({])', 'Refusal::BudgetSpent'),
    (r'Stop::(Settled|LimitReached)\b', 'Stop::BudgetSpent'), (r'Cause::Beyond', 'Cause::Unread'),
    (r'saturating_(add|sub)\(1\)', r'saturating_\1(2)'), (r'is_ok\(\)', 'is_err()'),
    (r'\bearlier\b(?=\)|,)', 'later'), (r'\bfirst\b', 'second'),
    (r'\b([A-Z_]{4,})\b', r'(\1 - 1)'), (r'(?<![\w.\[;"])(\d[\d_]*)\b(?!\.\.)', plus_one),
    (r'(?m)^\s+[\w.\[\]]+ (\+|-)?= .*;$', ''), (r'(?m)^\s+[\w.:]+\([^;{}]*\)\??;$', ''),
    (r'\((\w+), (\w+)\)', r'(\2, \1)'), (r'\((\w+), (\w+), ', r'(\2, \1, '),
    (r'"([^"{}]+)"', r'"\1."'), (r'"(?=[^"]*\{)', '"x'), (r"b'(.)'", "b'x'"), (r'Ok\(\(\)\)', 'Err(Refusal::BudgetSpent)'),
]


def bodies(text):
    """The name of each function that has a body, and where its body begins and ends. Tests are left out."""
    end_of_code = text.find('#[cfg(test)]\nmod tests {')
    for match in FUNCTION.finditer(text):
        if 0 <= end_of_code < match.start():
            return
        indent = match.group(1).replace('\n', '')
        opening = re.compile(r'(?m)^%s\{\n| \{\n|;$' % re.escape(indent))
        at = match.end()
        while (found := opening.search(text, at)) is not None:
            line = text[text.rfind('\n', 0, found.start()) + 1:found.start()]
            if found.group(0) == ';' or not re.match(r'\s*(ensures|requires|ghost)\b', line):
                break
            at = found.end()
        if found is None or found.group(0) == ';':
            continue
        closing = re.compile(r'(?m)^%s\}$' % re.escape(indent)).search(text, found.end())
        if closing is not None:
            yield match.group(2), found.end(), closing.start()


def bugs_in(body):
    """The bodies with one bug each, in an order that is the same in every run."""
    found = []
    for pattern, by in BUGS:
        for match in re.finditer(pattern, body):
            start = body.rfind('\n', 0, match.start()) + 1
            line = body[start:].split('\n', 1)[0].strip()
            new = by(match) if callable(by) else match.expand(by)
            if line.startswith('//') or new == match.group(0):
                continue
            note = '%s -> %s in `%s`' % (match.group(0).strip(), new.strip() or 'nothing', line)
            found.append((body[:match.start()] + new + body[match.end():], note))
    random.Random(len(body)).shuffle(found)
    return found


class Crate:
    def __init__(self, copy, name):
        self.copy, self.name = copy, name
        self.src = copy / 'crates' / name / 'src'
        self.texts = {f: f.read_text() for f in sorted(self.src.rglob('*.rt')) if f.name != 'tests.rt'}
        # By file, name and place of the body: the bugs that wait.
        self.waiting = {(f, n, a, b): bugs_in(t[a:b]) for f, t in self.texts.items() for n, a, b in bodies(t)}

    def plant(self, chosen):
        for file, text in self.texts.items():
            for key in sorted((k for k in chosen if k[0] == file), key=lambda k: -k[2]):
                text = text[:key[2]] + chosen[key][0] + text[key[3]:]
            file.write_text(text)

    def check(self):
        run = subprocess.run(['rt', 'dev', self.name], cwd=self.copy, capture_output=True, text=True)
        return run.stdout + run.stderr

    def verdict(self, results, file, function):
        parts = [p for p in file.relative_to(self.src).with_suffix('').parts if p not in ('lib', 'main')]
        module = '::'.join([self.name, *parts]) + '::'
        said = [v for k, v in results.items() if k.startswith(module) and k.split('::')[-1] == function]
        if any(v != 'proved' and 'it calls' not in v for v in said):
            return 'caught'
        if any('it calls' in v for v in said):
            return 'waits'
        return 'survives' if said else 'unseen'

    def drop_ill_typed(self, chosen, said):
        """A bug that is no Rattle at all ends the check: drop those that stand where it points."""
        dropped = 0
        for path, line in PLACE.findall(said):
            file = self.src / path
            if file not in self.texts:
                continue
            text = file.read_text()
            for name, a, b in bodies(text):
                if text.count('\n', 0, a) <= int(line) <= text.count('\n', 0, b) + 2:
                    for key in [k for k in chosen if k[0] == file and k[1] == name]:
                        self.waiting[key].pop(0)
                        del chosen[key]
                        dropped += 1
        return dropped


def campaign(crate, wanted):
    planted = caught = 0
    tried = dict.fromkeys(crate.waiting, 0)
    for _ in range(PASSES * wanted):
        chosen = {k: bugs[0] for k, bugs in crate.waiting.items() if bugs and tried[k] < wanted}
        if not chosen:
            break
        crate.plant(chosen)
        said = crate.check()
        results = dict(RESULT.findall(said))
        if not results:
            if not crate.drop_ill_typed(chosen, said):
                sys.exit('the check says nothing of any function:\n' + said[-2000:])
            continue
        for key, (_, note) in chosen.items():
            verdict = crate.verdict(results, key[0], key[1])
            if verdict == 'waits':
                continue
            crate.waiting[key].pop(0)
            if verdict == 'unseen':
                continue
            tried[key] += 1
            planted += 1
            caught += verdict == 'caught'
            if verdict == 'survives':
                print('survives: %s, %s: %s' % (key[0].relative_to(crate.src), key[1], note), flush=True)
    print('%s: %d planted, %d caught, in %d functions' % (crate.name, planted, caught, sum(n > 0 for n in tried.values())))


def main():
    if len(sys.argv) not in (2, 3):
        sys.exit(__doc__)
    root = pathlib.Path(__file__).resolve().parent.parent
    with tempfile.TemporaryDirectory() as folder:
        copy = pathlib.Path(folder) / 'copy'
        shutil.copytree(root, copy, ignore=shutil.ignore_patterns('.git'))
        campaign(Crate(copy, sys.argv[1]), int(sys.argv[2]) if len(sys.argv) == 3 else 3)


if __name__ == '__main__':
    main()
