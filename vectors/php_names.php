<?php
// Prints the rows of crates/php_decl/src/real.rt: twenty files of Debian's packages, with the names that they declare, as
// PHP itself has them once it has loaded the file, and as Composer's own scan of its class maps finds them. It stops where
// the two differ.
// Usage: php vectors/php_names.php, with Debian's packages composer, php-psr-log, php-psr-container, php-react-promise,
// php-json-schema, php-composer-pcre, php-composer-semver and those of Symfony that composer depends on. The files stand
// under the MIT licence (Expat), which Debian's copyright files of these packages have.
const ROOT = '/usr/share/php/';
require ROOT . 'Composer/ClassMapGenerator/autoload.php';
require_once ROOT . 'Composer/ClassMapGenerator/PhpFileParser.php';

$files = [
    'Psr/Log/LoggerAwareInterface.php', 'Psr/Log/LoggerAwareTrait.php', 'Psr/Log/NullLogger.php', 'Psr/Log/LogLevel.php', 'Symfony/Component/Console/CommandLoader/FactoryCommandLoader.php',
    'Psr/Container/NotFoundExceptionInterface.php', 'React/Promise/CancellablePromiseInterface.php', 'React/Promise/UnhandledRejectionException.php', 'React/Promise/functions_include.php', 'JsonSchema/Exception/InvalidConfigException.php',
    'JsonSchema/Constraints/TypeCheck/TypeCheckInterface.php', 'Composer/Pcre/MatchResult.php', 'Composer/Pcre/UnexpectedNullMatchException.php', 'Symfony/Component/Console/Helper/TableSeparator.php', 'Symfony/Component/Console/Command/SignalableCommandInterface.php',
    'Composer/Command/AboutCommand.php', 'Symfony/Component/String/Resources/functions.php', 'Symfony/Component/Console/Output/BufferedOutput.php', 'Symfony/Contracts/Service/Attribute/Required.php', 'Seld/JsonLint/DuplicateKeyException.php',
];

// A text as a literal of Rust.
function literal(string $text): string {
    return '"' . strtr($text, ['\\' => '\\\\', '"' => '\\"', "\n" => '\\n', "\t" => '\\t', "\r" => '\\r']) . '"';
}

// The names that PHP has from this file, in the file's order, in a process of its own.
function loaded(string $path): array {
    $code = 'spl_autoload_register(function ($name) { $f = "' . ROOT . '" . strtr($name, "\\\\", "/") . ".php"; if (is_file($f)) require_once $f; });'
        . 'require_once $argv[1]; $found = [];'
        . 'foreach (array_merge(get_declared_classes(), get_declared_interfaces(), get_declared_traits()) as $name) {'
        . ' $c = new ReflectionClass($name); if ($c->getFileName() === realpath($argv[1]) && !$c->isAnonymous()) $found[$name] = $c->getStartLine(); }'
        . 'asort($found); echo implode("\n", array_keys($found));';
    return array_values(array_filter(explode("\n", shell_exec('php -r ' . escapeshellarg($code) . ' -- ' . escapeshellarg($path)))));
}

foreach ($files as $file) {
    $path = ROOT . $file;
    $names = Composer\ClassMapGenerator\PhpFileParser::findClasses($path);
    if ($names !== loaded($path)) {
        fwrite(STDERR, "$file: Composer and PHP differ\n");
        exit(1);
    }
    $shown = implode('', array_map(fn ($name) => "$name ", $names));
    echo "    // $file\n    Real {\n        text: ", literal(file_get_contents($path)), ",\n        names: ", literal($shown), ",\n    },\n";
}
