#!/usr/bin/env python3
"""Lists the must-fail edits whose old text doesn't stand exactly once in its file (earlier pairs of the edit applied)."""
import glob
import sys

bad = 0
for path in sorted(glob.glob('crates/*/must-fail/*.edit')):
    crate = path.split('/must-fail/')[0]
    texts, file, old = {}, None, None
    for line in open(path, encoding='utf-8').read().split('\n'):
        key, _, value = line.partition(': ')
        if key == 'file':
            file = f'{crate}/{value}'
            texts.setdefault(file, open(file, encoding='utf-8').read())
        elif key == 'old':
            old = value
        elif key == 'new':
            if texts[file].count(old) != 1:
                bad += 1
                print(f'{path}: {texts[file].count(old)} times: {old}')
            texts[file] = texts[file].replace(old, value, 1)
print(bad, 'edits to bring over')
sys.exit(bad > 0)
