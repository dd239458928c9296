# Makes in the current folder a project that requires packages of a path repository, which are to be copied, each with a number
# of files: classes, each in a file of its own. The bytes of all files are printed.
# Usage: path_packages.py PACKAGES FILES, or, where the project is there, path_packages.py PACKAGES FILES VERSION: then each
# package is of that version, and one of its files says so.
import json
import os
import sys

METHOD = '''
    public function part%d(array $options = []): ?string
    {
        return isset($options['part%d']) ? sprintf("%%s: %%s", self::class, $options['part%d']) : null;
    }
'''


def write(path, text):
    folder = os.path.dirname(path)
    if folder:
        os.makedirs(folder, exist_ok=True)
    with open(path, 'w') as file:
        file.write(text)
    return len(text)


def class_text(space, name, methods):
    body = ''.join(METHOD % (m, m, m) for m in range(methods))
    return '<?php\n\nnamespace %s;\n\nfinal class %s\n{\n%s}\n' % (space, name, body)


# The bytes of a package's files.
def package(i, files, version, is_new):
    space = 'Demo\\P%03d' % i
    folder = 'packages/p%03d' % i
    manifest = {'name': 'demo/p%03d' % i, 'version': version, 'type': 'library', 'autoload': {'psr-4': {space + '\\': 'src/'}}}
    if i:
        manifest['require'] = {'demo/p%03d' % (i // 2): '>=1.0'}
    total = write('%s/composer.json' % folder, json.dumps(manifest, indent=4) + '\n')
    total += write('%s/src/Version.php' % folder, class_text(space, 'Version', 1) + '// %s\n' % version)
    for k in range(files - 2 if is_new else 0):
        total += write('%s/src/Part%d/Thing%03d.php' % (folder, k % 4, k), class_text(space + '\\Part%d' % (k % 4), 'Thing%03d' % k, 12 + k % 9))
    return total


def main(count, files, version=None):
    total = sum(package(i, files, version or '1.0.0', version is None) for i in range(count))
    repository = {'type': 'path', 'url': 'packages/*', 'options': {'symlink': False}}
    write('composer.json', json.dumps({'name': 'bench/site', 'require': {'demo/p%03d' % i: '*' for i in range(count)},
        'repositories': [repository, {'packagist.org': False}]}, indent=4) + '\n')
    os.sync()
    print('%d packages, %.1f MB' % (count, total / 1e6) if version is None else '%s of all' % version)


main(int(sys.argv[1]), int(sys.argv[2]), *sys.argv[3:])
