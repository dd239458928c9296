# Makes in the current folder a project with packages in `vendor`, as Composer installs them, each of some classes in files of
# their own: most packages by PSR-4, some by PSR-0, and some listed by `classmap`. `packages` has their manifests, and the
# number of files and their bytes are printed.
# Usage: php_project.py PACKAGES CLASSES METHODS, where a class has METHODS methods, or up to four more.
import json
import os
import sys


def write(path, text):
    folder = os.path.dirname(path)
    if folder:
        os.makedirs(folder, exist_ok=True)
    with open(path, 'w') as file:
        file.write(text)


METHOD = '''
    /** Gives part %d of what this class was made of; a class is named in this text, and declares nothing. */
    public function part%d(array $options = []): ?string
    {
        if (!isset($options['part%d'])) {
            return null; // a class that isn't there
        }
        return sprintf("%%s: %%s", self::class, $options['part%d']);
    }
'''


def source(namespace, name, methods):
    body = ''.join(METHOD % (m, m, m, m) for m in range(methods))
    return ('<?php\n\nnamespace %s;\n\nuse InvalidArgumentException;\n\nfinal class %s\n{\n    private array $parts = [];\n%s}\n'
            % (namespace, name, body))


def write_class(path, namespace, name, methods):
    text = source(namespace, name, methods)
    write(path, text)
    return len(text)


# The manifest of a package, whose classes are written.
def package(i, classes, methods):
    name = 'v%02d/p%03d' % (i % 20, i)
    space = 'V%02d\\P%03d' % (i % 20, i)
    rule = {8: 'psr-0', 9: 'classmap'}.get(i % 10, 'psr-4')
    source_folder = 'src/' + space.replace('\\', '/') if rule == 'psr-0' else 'src'
    total = 0
    for k in range(classes):
        inner = ['', '\\Model', '\\Http\\Controller', '\\Storage'][k % 4]
        folder = 'vendor/%s/%s%s' % (name, source_folder, inner.replace('\\', '/'))
        total += write_class('%s/Thing%03d.php' % (folder, k), space + inner, 'Thing%03d' % k, methods + k % 5)
    autoload = {'classmap': ['src/']} if rule == 'classmap' else {rule: {space + '\\': 'src/'}}
    return {'name': name, 'version': '1.0.0', 'require': {}, 'autoload': autoload}, total


def main(count, classes, methods):
    packages, installed = [], []
    total = write_class('src/Home.php', 'App', 'Home', methods)
    for i in range(count):
        manifest, written = package(i, classes, methods)
        if i >= 10:
            manifest['require'] = {other['name']: '^1.0' for other in packages[i % 7:i % 7 + 3]}
        total += written
        packages.append(manifest)
        write('vendor/%s/composer.json' % manifest['name'], json.dumps(manifest))
        installed.append(dict(manifest, version_normalized='1.0.0.0', type='library', **{'install-path': '../' + manifest['name']}))
    write('composer.json', json.dumps({'name': 'bench/site', 'autoload': {'psr-4': {'App\\': 'src/'}}}))
    write('vendor/composer/installed.json', json.dumps({'packages': installed, 'dev': True, 'dev-package-names': []}))
    write('packages', json.dumps(packages))
    os.sync()
    print('%d files, %.1f MB' % (count * classes + 1, total / 1e6))


main(*map(int, sys.argv[1:]))
