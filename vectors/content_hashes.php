<?php
// Prints the rows of the table of content hashes in crates/content_hash/src/tests.rt: a composer.json,
// and the content hash that Composer 2.5.5 (Composer\Package\Locker::getContentHash) gives for it.
// Usage: php -d auto_prepend_file=/usr/share/php/Composer/autoload.php vectors/content_hashes.php
// (or with any installation's autoload file of Composer).

$manifests = [
    '{}',
    '{"name":"x/y"}',
    '{"require":{"a/b":"^1.0"},"name":"x/y"}',
    '{"name":"shop/site","require":{"php":">=8.1","acme/log":"^1.2"},"repositories":[{"type":"path","url":"packages/*"}],"autoload":{"psr-4":{"App\\\\":"src/"}}}',
    '{"extra":{"a":{},"b":{"0":1,"1":2},"a":3}}',
    '{"extra":{"e":{},"u":"é/😀\u007f"}}',
    '{"config":{"vendor-dir":"vendor","platform":{"php":"8.1.2"}},"require-dev":{"c/d":"*"}}',
    '{"config":{"platform":null},"version":"1.2.3","minimum-stability":"dev","prefer-stable":true}',
    '{"config":{"platform":{}},"conflict":{"a/b":"<2"},"provide":{"p/q":"1"},"replace":{"r/s":"self.version"}}',
    '{"name":null,"description":"a","type":"library","repositories":{"0":{"packagist.org":false},"1":{"type":"path","url":"../x"}}}',
    '{"version":"1.0","name":"z/z","extra":[1,[2,{"b":1,"a":[]}]],"authors":[],"config":[]}',
];

function bytes(string $text): string
{
    $out = '';
    foreach (str_split($text) as $byte) {
        $code = ord($byte);
        $out .= $byte === '"' || $byte === '\\' ? '\\' . $byte : ($code < 32 || $code > 126 ? sprintf('\\x%02x', $code) : $byte);
    }
    return 'b"' . $out . '"';
}

foreach ($manifests as $manifest) {
    echo '    [', bytes($manifest), ', b"', \Composer\Package\Locker::getContentHash($manifest), "\"],\n";
}
