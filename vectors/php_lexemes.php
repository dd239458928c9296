<?php
// Prints the rows of crates/php_lex/src/real.rt: three files of Debian's packages, with the number of lexemes and a
// checksum of their kinds and lengths by PHP's own tokenizer, whose tokens bench/php_cut.php brings into this project's
// kinds.
// Usage: php -d short_open_tag=0 vectors/php_lexemes.php, with Debian's packages composer, php-symfony-process and
// php-json-schema. The files stand under the MIT licence (Expat), which Debian's copyright files of these packages have.
require __DIR__ . '/../bench/php_cut.php';

$files = ['Composer/Command/AboutCommand.php', 'Symfony/Component/Process/Exception/ProcessFailedException.php', 'JsonSchema/Exception/JsonDecodingException.php'];

// A text as a literal of Rust.
function literal(string $text): string {
    return '"' . strtr($text, ['\\' => '\\\\', '"' => '\\"', "\n" => '\\n', "\t" => '\\t', "\r" => '\\r']) . '"';
}

foreach ($files as $file) {
    $text = file_get_contents("/usr/share/php/$file");
    preg_match_all('/([a-zA-Z])([0-9]+)/', cut($text), $lexemes, PREG_SET_ORDER);
    $sum = 0;
    foreach ($lexemes as [, $letter, $len]) {
        $sum = (($sum * 31 + ord($letter)) * 31 + (int) $len) % 4294967296;
    }
    $count = count($lexemes);
    echo "    // $file\n    Real {\n        text: ", literal($text), ",\n        count: $count,\n        sum: $sum,\n    },\n";
}
