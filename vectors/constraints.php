<?php
// Prints the rows of crates/constraint_set/src/vectors.rt: which versions satisfy which constraints, and which
// constraints meet, by the composer/semver that an installed Composer 2 has with it.
// Usage: php vectors/constraints.php [FOLDER of composer/semver, with its autoload.php; /usr/share/php/Composer/Semver]
require ($argv[1] ?? '/usr/share/php/Composer/Semver') . '/autoload.php';

use Composer\Semver\Constraint\Constraint;
use Composer\Semver\Intervals;
use Composer\Semver\VersionParser;

$versions = [
    '0.0.3', '0.3.0', '0.9.9', '1.0.0-dev', '1.0.0-alpha1', '1.0.0-beta1', '1.0.0-beta2', '1.0.0-RC1', '1.0.0', '1.0.0-patch1',
    '1.0.1', '1.1.0', '1.2.0-beta1', '1.2.0', '1.2.3', '1.2.3.4', '1.2.4', '1.9.9', '1.x-dev', '2.0.0-dev',
    '2.0.0-alpha1', '2.0.0', '2.0.5', '2.1.0-dev', '2.1.0', '2.x-dev', '3.0.0', '10.0.0', 'dev-main', 'dev-feature',
];
$constraints = [
    '*', '1.*', '1.2.*', 'v1.2.x', '0.*', '~1', '~1.2', '~1.2.3', '~1.2.3.4', '~1.2-beta1',
    '^1', '^1.2', '^1.2.3', '^0.3', '^0.0.3', '^0', '^1.0-beta1', '1.0 - 2.0', '1.0.0 - 2.1.0', '1.0 - 2.0-alpha1',
    '1.2 - 2', '>1.0', '>=1.0', '<2.0', '<=2.0', '1.2.3', '!=1.2.3', '>=1.0@beta', '<2.0@dev', '>=1.0-RC1',
    'dev-main', 'dev-main#abc', '!=dev-main', '1.x-dev', '<=1.x-dev', '>1.0 <2.0', '>=1.0,<2.0 || >=3.0', '<1.0 | >2.0', '!=1.0.0, !=2.0.0', '>2.0 <1.0',
];

$parser = new VersionParser();
$parsed = array_map(fn ($text) => $parser->parseConstraints($text), $constraints);
$exact = array_map(fn ($text) => new Constraint('==', $parser->normalize($text)), $versions);
$bits = fn ($tests) => implode('', array_map(fn ($test) => $test ? '1' : '0', $tests));

foreach ($versions as $version) {
    echo "    \"$version\",\n";
}
foreach ($parsed as $i => $constraint) {
    $satisfied = $bits(array_map(fn ($version) => $constraint->matches($version), $exact));
    $meets = $bits(array_map(fn ($other) => Intervals::haveIntersections($constraint, $other), $parsed));
    echo "    Row {\n        constraint: \"{$constraints[$i]}\",\n        satisfied: b\"$satisfied\",\n        meets: b\"$meets\",\n    },\n";
}
