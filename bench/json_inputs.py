"""Writes the texts that bench/json.sh and bench/json_print.sh read, into the folder that is named, except those that
stand there already: always the same bytes. Usage: json_inputs.py FOLDER"""
import json, os, sys


def package(i):
    return {
        'name': 'vendor/p%d' % i, 'version': '1.%d.0' % i,
        'dist': {'type': 'path', 'url': 'packages/p%d' % i, 'reference': 'r%039d' % i},
        'require': {'php': '>=8.1', 'a/b': '^1.0'}, 'type': 'library',
        'autoload': {'psr-4': {'App\\P%d\\' % i: 'src/'}},
    }


def lock(count):
    return json.dumps({'packages': [package(i) for i in range(count)], 'packages-dev': []}, indent=4)


def names(count, more=''):
    return '{' + ','.join('"name%d":%d' % (i, i) for i in range(count)) + more + '}'


def manifest():
    return json.dumps({
        'name': 'shop/site', 'description': 'Sells été/hiver 😀', 'type': 'project',
        'require': {'vendor/p%d' % i: '^1.%d' % (i % 50) for i in range(20000)},
        'require-dev': {'tools/t%d' % i: '>=2.0 <3.0 || dev-main' for i in range(2000)},
        'repositories': [{'type': 'path', 'url': 'packages/p%d' % i} for i in range(20000)],
        'extra': {'texts': ['Zeile %d: äöü "quoted" \\ /path' % i for i in range(20000)]},
        'config': {'platform': {'php': '8.1.2'}, 'sort-packages': True},
    }, indent=4, ensure_ascii=False)


TEXTS = {
    'lock': lambda: lock(150000),
    'lock_4096': lambda: lock(4096),
    'manifest': manifest,
    'names_200000': lambda: names(200000),
    'names_200000_one_twice': lambda: names(200000, ',"name0":1'),
    'names_800000': lambda: names(800000),
    'plain_names_50000': lambda: '{' + ','.join('"n%07d":0' % (i * 7919 % 9999991) for i in range(50000)) + '}',
    'small_objects_500000': lambda: '[' + ','.join(['{"a":1}'] * 500000) + ']',
    'deep_lists': lambda: '[' + ','.join(['[' * 100 + ']' * 100] * 30000) + ']',
    'two_byte_texts': lambda: '[' + ','.join(['"' + 'é' * 24 + '"'] * 500000) + ']',
    'numbers_1000000': lambda: '[' + ','.join(str(i * 7919 % 1000003) for i in range(1000000)) + ']',
    'escapes': lambda: '"' + '\\n\\u00e9\\"abc' * 1500000 + '"',
    'one_text_64MiB': lambda: '"' + ('plain text with some words. ' * 2396745)[:64 * 1024 * 1024 - 2] + '"',
}

for name, text in TEXTS.items():
    path = os.path.join(sys.argv[1], name)
    if not os.path.exists(path):
        with open(path + '.part', 'w', encoding='utf-8', newline='') as out:
            out.write(text())
        os.rename(path + '.part', path)
