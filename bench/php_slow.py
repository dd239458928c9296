"""Times the program of bench/php.sh over texts that are made to be slow, each in two sizes.

Usage: python3 bench/php_slow.py PROGRAM. Prints MB/s of the cut, of the names by a cut of the whole text, and of the
names, at 4 MB and at 16 MB, and the least of each. The first texts are one piece again and again; the last ones draw from
some pieces at random, so that a processor can't foretell what comes next.
"""
import random
import subprocess
import sys

SIZES = (4 << 20, 16 << 20)
CODE = '<?php '
TEXTS = [
    ('quotes in nested code', CODE, '"{$'),
    ('quotes in nested code, closed', CODE, '"{$a}"'),
    ('thirty levels, closed', CODE, '"{$' * 30 + "''" + '}"' * 30),
    ('quotes in braces', CODE + '"{$', "'a'"),
    ('braces', CODE + '"{$', '{'),
    ('braces, closed', CODE + '"{$', '{}'),
    ('comments in braces', CODE + '"{$', '/**/'),
    ('bytes in braces', CODE + '"{$', 'a'),
    ('less-than signs in braces', CODE + '"{$', '<'),
    ('half a heredoc opening in braces', CODE + '"{$', '<<<;'),
    ('slashes in braces', CODE + '"{$', '/;'),
    ('`${` without an end', CODE + '"', '${'),
    ('single quotes', CODE, "''"),
    ('escapes in single quotes', CODE + "'", "\\'"),
    ('escapes in double quotes', CODE + '"', '\\"'),
    ('dollars in double quotes', CODE + '"', '$'),
    ('heredoc openings', CODE, '<<<A\n'),
    ('heredocs, closed', CODE, '<<<A\nA\n'),
    ('labels that nearly close', CODE + '<<<A\n', ' A1\n'),
    ('long labels that nearly close', CODE, '<<<' + 'A' * 1000 + '\n' + 'A' * 999 + '\n'),
    ('bytes of a heredoc', CODE + '<<<A\n', 'a'),
    ('line ends of a heredoc', CODE + '<<<A\n', '\n'),
    ('line ends of a nowdoc', CODE + "<<<'A'\n", '\n'),
    ('half a heredoc opening', CODE, '<<< '),
    ('half a heredoc opening, short', CODE, '<<<;'),
    ('half a heredoc opening, quoted', CODE, "<<<'"),
    ('blanks in a heredoc opening', CODE + '<<<', ' '),
    ('one label without an end', CODE + '<<<', 'A'),
    ('tags', '', '<?php ?>'),
    ('echo tags', '', '<?=?>'),
    ('half tags', '', '<?ph'),
    ('less-than signs in Html', '', '<'),
    ('Html', '', 'a'),
    ('comments', CODE, '/**/'),
    ('stars in a comment', CODE + '/*', '*'),
    ('question marks in a comment', CODE + '//', '?'),
    ('line comments', CODE, '#\n'),
    ('names', CODE, 'a '),
    ('joined names', CODE, 'a\\'),
    ('variables', CODE, '$a'),
    ('numbers', CODE, '1 '),
    ('signs', CODE, '->'),
    ('marks', CODE, ';'),
    ('less-than signs', CODE, '<'),
    ('slashes', CODE, '/;'),
    ('openings of attributes', CODE, '#['),
    ('question marks', CODE, '?'),
    ('dollars', CODE, '$'),
    ('backslashes', CODE, '\\'),
    ('hyphens', CODE, '-'),
    ('blanks', CODE, ' '),
    ('class', CODE, 'class '),
    ('class, with comments', CODE, 'class/**/'),
    ('classes', CODE, 'class A{}'),
    ('namespaces', CODE, 'namespace A;'),
    ('namespace', CODE, 'namespace '),
    ('members', CODE, '::class '),
    ('ends of words', CODE, 'ss '),
    ('ends of words in a comment', CODE + 'class A{}/*', 'ce '),
]
MIXED = [
    ('signs', CODE, ['<', '$', '?', '-', '\\', '#[', '/;', ':', '=']),
    ('attributes and backslashes', CODE, ['#[', '\\']),
    ('signs, strings and numbers', CODE, ['$', '{', '``', '\n', '<<<', '1', '#[']),
    ('slashes and question marks', CODE, ['/;', '?', '<<<']),
    ('signs and strings', CODE, ["''", '$', '\\']),
    ('names and signs', CODE, ['\\a', ' ', '?-', '"\\""', 'a', '-', '\\']),
    ('empty strings', CODE, ["''", '""', '``']),
    ('strings and comments', CODE, ["'a'", '#\n', '12', "''", '""', '(', '  ', ':']),
    ('blanks and names', CODE, [' ;', '  ;', '   ;', ';', 'a ', 'ab ', 'abc ', 'abcdef ']),
    ('half heredoc openings', CODE, ['<<< ', '<<<;', "<<<'", '<<<a;', '<', '<<', '<<<"a;', '<<<"a" ']),
    ('heredocs', CODE, ['<<<A\nA\n', '<<<A\n A;', '<<<"A"\nA;', "<<<'A'\nA;", '<<<A\n\nA;', '<<<A;\n']),
    ('bytes of a heredoc', CODE + '<<<A\n', ['A', 'a', '$', '\r', '{$a}', '\n B', '\\$', '\\\n']),
    ('lines of a nowdoc', CODE + "<<<'A'\n", ['\n', '\n A1', '\r', 'a', '\nB', '\nA1', 'aaaa\n']),
    ('nested code in double quotes', CODE + '"', ['{$}', '${}', '{$a}', '$', 'a', '\\"', '{$"{$}"}']),
    ('signs in nested code', CODE + '"{$', ['<', '/;', '#[', '{}', 'a', "''"]),
    ('strings in nested code', CODE + '"{$', ['\n', ' ', '``', '\\', '"$"']),
    ('tags', '', ['<?php ?>', '<?=?>', '<?PHP\n?>', '<?=;?>', '<?php a?>', 'a<?=?>']),
    ('half tags', '', ['<', '<?', '<?ph', '<?php', 'a', '<?php ?>', '<?=?>', 'aaa']),
    ('declarations', CODE, ['class A{}', 'enum B:int{}', 'interface C{}', 'trait D{}', 'namespace E;', 'class ', '::class;']),
]
DRAWN = random.Random(1)


def mixed(before, pieces, size):
    """So many bytes behind `before`, of pieces in an order that is drawn."""
    shortest = min(map(len, pieces))
    return before + ''.join(DRAWN.choices(pieces, k=size // shortest))[:size]


def texts():
    """Each text's name, and the text at 4 MB and at 16 MB."""
    for name, before, piece in TEXTS:
        yield name, [before + piece * (size // len(piece)) for size in SIZES]
    for name, before, pieces in MIXED:
        yield name + ', mixed', [mixed(before, pieces, size) for size in SIZES]


def speeds(program, text):
    """MB/s of the three ways over one text."""
    given = b'%d\n' % len(text) + text
    out = subprocess.run([program], input=given, stdout=subprocess.PIPE, check=True).stdout.decode()
    return [round(len(text) / max(1, int(line.split()[1]))) for line in out.splitlines()]


def main():
    least = [1 << 30] * 3
    for name, both in texts():
        row = [speeds(sys.argv[1], text.encode()) for text in both]
        least = [min(some) for some in zip(least, *row)]
        print('%-36s' % name, ' '.join('%6d' % speed for speed in row[0] + row[1]), flush=True)
    print('slowest cut, names by the whole cut, and names:', *least, 'MB/s')


main()
