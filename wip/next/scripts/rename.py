#!/usr/bin/env python3
"""Renames four definitions of scope in a tree: Hashes.whole, Run.ended, Reading.Table, Stages.lent."""
import re, sys, os, subprocess
root = sys.argv[1]
R = [('Hashes', 'whole', 'wholeHash'), ('Run', 'ended', 'endedWith'), ('Reading', 'Table', 'NodeTable'), ('Stages', 'lent', 'tablesLent')]
files = [os.path.join(d, f) for d, _, fs in os.walk(os.path.join(root, 'crates')) for f in fs if f.endswith(('.antt', '.rt', '.edit'))]
for path in files:
    s = t = open(path, encoding='utf8').read()
    for module, old, new in R:
        imported = re.search(r'Rattle·scope(?:·specs)?\.specs\.%s\.\{[^}]*(?<![\w\'-])%s(?![\w\'·-])[^}]*\}' % (module, old), t)
        own = path.endswith('scope/specs/%s.antt' % module)
        if not imported and not own:
            continue
        word = re.compile(r"(?<![\w'.·-])%s(?![\w'·-])" % re.escape(old))
        lines = t.split('\n')
        for k, line in enumerate(lines):
            if re.match(r'\s*(ghost )?use ', line):
                if re.search(r'scope(·specs)?\.specs\.%s\.\{' % module, line):
                    lines[k] = word.sub(new, line)
                continue
            code, sep, comment = line.partition('-- ') if line.lstrip().startswith('--') else (line, '', '')
            lines[k] = word.sub(new, code) + sep + comment
        t = '\n'.join(lines)
    if t != s:
        open(path, 'w', encoding='utf8').write(t)
        print(path)
