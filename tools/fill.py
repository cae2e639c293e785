"""Fills a printed proof file from Python:

    fill(path, {'goal': 'answer'}, uses=[..], unfold={'goal': 'f g'}, head=.., before=('goal', text))

An answer of several lines is indented by four spaces. The holes that are left become `search rules`, unless `rest` is None. What a proved
file no longer needs `rt tidy` takes out.
"""
import re


def fill(path, answers=None, uses=(), unfold=None, head=None, before=None, rest='search rules'):
    with open(path, encoding='utf-8') as file:
        text = file.read()
    for goal, answer in (answers or {}).items():
        found = re.search(r'^(' + re.escape(goal) + r'(?: [^\n=]*)?) =[^\n]*(?:\n    [^\n]*)*', text, re.M)
        if found is None:
            print('no', goal, 'in', path)
            continue
        text = text[:found.start()] + found.group(1) + ' = ' + answer.strip('\n') + text[found.end():]
    for goal, names in (unfold or {}).items():
        signature = r'^((?:abbrev )?(?:pub )?' + re.escape(goal) + r' : [^\n]*\n)(unfolding [^\n]*\n)?'
        text = re.sub(signature, lambda m, names=names: m.group(1) + f'unfolding {names}\n', text, count=1, flags=re.M)
    if rest:
        text = re.sub(r'^(\S+ [^\n=]*)= \?$', lambda m: m.group(1) + '= ' + rest, text, flags=re.M)
    wanted = list(uses)
    if 'search rules' in text and 'borrow.Author.Rules.{rules}' not in text:
        wanted.insert(0, 'borrow.Author.Rules.{rules}')
    lines = text.split('\n')
    at = 0
    while lines[at].startswith('--'):
        at += 1
    lines[at:at] = ['use ' + name for name in wanted if 'use ' + name not in lines]
    text = '\n'.join(lines)
    if head and not text.startswith('--'):
        text = head.strip('\n') + '\n' + text
    if before:
        found = re.search(r'^(-- [^\n]*\n)?(abbrev )?(pub )?' + re.escape(before[0]) + r' : ', text, re.M)
        text = text[:found.start()] + before[1] + text[found.start():]
    with open(path, 'w', encoding='utf-8') as file:
        file.write(text)
