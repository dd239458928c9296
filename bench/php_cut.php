<?php
// The cut of each file of a list by PHP's own tokenizer, in this project's kinds: letter and length.
function cut(string $text): string {
    $out = [];
    $push = function (string $kind, int $len) use (&$out) {
        if ($len === 0) return;
        if (($kind === 'B' || $kind === 'H') && $out && end($out)[0] === $kind) { $out[count($out) - 1][1] += $len; return; }
        $out[] = [$kind, $len];
    };
    $tokens = token_get_all($text);
    $n = count($tokens);
    $len = fn($t) => strlen(is_array($t) ? $t[1] : $t);
    for ($i = 0; $i < $n; $i++) {
        $t = $tokens[$i];
        $id = is_array($t) ? $t[0] : $t;
        $s = is_array($t) ? $t[1] : $t;
        if ($id === '"' || $id === '`' || $id === 'b"' || $id === T_START_HEREDOC) {
            $sum = strlen($s); $stack = [$id === T_START_HEREDOC ? T_END_HEREDOC : ($id === 'b"' ? '"' : $id)];
            while ($stack && ++$i < $n) {
                $u = $tokens[$i]; $uid = is_array($u) ? $u[0] : $u; $sum += $len($u);
                $top = end($stack);
                if ($uid === $top) { array_pop($stack); continue; }
                if ($uid === T_CURLY_OPEN || $uid === T_DOLLAR_OPEN_CURLY_BRACES || $uid === '{') $stack[] = '}';
                elseif ($uid === T_START_HEREDOC) $stack[] = T_END_HEREDOC;
                elseif ($uid === '"' || $uid === '`') $stack[] = $uid;
            }
            $push('Q', $sum);
        } elseif ($id === T_INLINE_HTML) $push('H', strlen($s));
        elseif ($id === T_OPEN_TAG) { $push('O', min(6, strlen($s))); $push('B', strlen($s) - min(6, strlen($s))); }
        elseif ($id === T_OPEN_TAG_WITH_ECHO) $push('O', 3);
        elseif ($id === T_CLOSE_TAG) { $push('C', 2); $push('H', strlen($s) - 2); }
        elseif ($id === T_WHITESPACE) $push('B', strlen($s));
        elseif ($id === T_COMMENT || $id === T_DOC_COMMENT) {
            $more = 0;
            if ($s[0] === '#' || $s[1] === '/') {
                if ($i + 1 < $n && is_array($tokens[$i + 1]) && $tokens[$i + 1][0] === T_WHITESPACE && in_array($tokens[$i + 1][1][0], ["\n", "\r"])) { $more = 1; $tokens[$i + 1][1] = substr($tokens[$i + 1][1], 1); }
            }
            $push('c', strlen($s) + $more);
        }
        elseif ($id === T_CONSTANT_ENCAPSED_STRING) { if ($s[0] === 'b' || $s[0] === 'B') { $push('P', 1); $push('Q', strlen($s) - 1); } else $push('Q', strlen($s)); }
        elseif ($id === T_NAME_QUALIFIED || $id === T_NAME_FULLY_QUALIFIED || $id === T_NAME_RELATIVE) $push('q', strlen($s));
        elseif ($id === T_VARIABLE) $push('V', strlen($s));
        elseif ($id === T_DOUBLE_COLON || $id === T_OBJECT_OPERATOR || $id === T_NULLSAFE_OBJECT_OPERATOR) $push('M', strlen($s));
        else {
            preg_match_all('/[0-9][a-zA-Z0-9_\x80-\xff]*|[a-zA-Z_\x80-\xff][a-zA-Z0-9_\x80-\xff]*|[ \t\r\n]+|./s', $s, $parts);
            foreach ($parts[0] as $p) {
                $k = ctype_digit($p[0]) ? 'N' : (preg_match('/^[a-zA-Z_\x80-\xff]/', $p) ? 'P' : (preg_match('/^[ \t\r\n]/', $p) ? 'B' : 'm'));
                $push($k, strlen($p));
            }
        }
    }
    return implode('', array_map(fn($x) => $x[0] . $x[1], $out));
}
if (realpath($argv[0]) === __FILE__) {
    foreach (file($argv[1], FILE_IGNORE_NEW_LINES) as $name) echo cut(file_get_contents($name)), "\n";
}
