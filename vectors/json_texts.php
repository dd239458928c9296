<?php
// Prints the rows of the table of printed forms in crates/json_ordered/src/tests.rt: a JSON text, what
// PHP's json_encode without flags makes of it (objects as arrays), and its pretty form.
// Usage: php vectors/json_texts.php

$texts = [
    'null', 'true', 'false', '0', '-12', '1.5', '""', '[]', '{}', '[[],{}]',
    '"plain"', '"a\"b\\\\c\/d/e"', '"\b\f\n\r\t\u0000\u001f\u007f\u0080"', '"é€/"', '"\u00e9\u20ac\ud83d\ude00"', '"𐀀"', '"\uffff\u2028\u2029"',
    '[1,2,3]', '[null,true,false]', '[{"a":1},{"b":[2]}]',
    '{"a":1}', '{"a":{},"b":[]}', '{"0":1}', '{"0":1,"1":2}', '{"1":1,"0":2}', '{"0":1,"2":2}', '{"00":1}', '{"0":{"0":[]},"1":{"1":0}}',
    '{"a":{},"b":{"0":1,"1":2},"a":3}', '{"e":{},"u":"é/"}', '{"0":0,"1":1,"2":2,"3":3,"4":4,"5":5,"6":6,"7":7,"8":8,"9":9,"10":10}',
    '{"é\"":"x","":[" "]}', '{"name":"x/y","require":{"php":">=8.1","a/b":"^1.0"},"autoload":{"psr-4":{"A\\\\":["src/","lib"]}}}',
];

function bytes(string $text): string
{
    $out = '';
    foreach (str_split($text) as $byte) {
        $code = ord($byte);
        if ($byte === '"' || $byte === '\\') {
            $out .= '\\' . $byte;
        } elseif ($byte === "\n") {
            $out .= '\\n';
        } elseif ($code < 32 || $code > 126) {
            $out .= sprintf('\\x%02x', $code);
        } else {
            $out .= $byte;
        }
    }
    return 'b"' . $out . '"';
}

foreach ($texts as $text) {
    $compact = json_encode(json_decode($text, true, 512, JSON_THROW_ON_ERROR), JSON_THROW_ON_ERROR);
    $pretty = json_encode(json_decode($text, false, 512, JSON_THROW_ON_ERROR), JSON_THROW_ON_ERROR
        | JSON_PRETTY_PRINT | JSON_UNESCAPED_SLASHES | JSON_UNESCAPED_UNICODE | JSON_UNESCAPED_LINE_TERMINATORS);
    echo '    [', bytes($text), ', ', bytes($compact), ', ', bytes($pretty), "],\n";
}
