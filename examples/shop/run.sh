#!/bin/sh
# A shop whose three packages lie in its folder: it is installed, classes are looked up, a package is changed, and the project
# updated; updates are killed and ended by `recover`.
set -eu
here=$(CDPATH= cd -- "$(dirname -- "$0")" && pwd -P)
. "$here/../common.sh"
begin "$here/project"

run install
opens "-d ." 'Shop\Home' src/Home.php
opens "-d ." 'Acme\Clock\Utc' vendor/acme/clock/src/Utc.php
opens "-d ." 'Acme\Log\File' vendor/acme/log/src/File.php
opens "-d ." 'Letter' vendor/acme/mail/Letter.php
run files
run check
loads . 'Shop\Home' 'Acme\Clock\Utc' 'Acme\Log\File' Letter
validates .

echo "the package acme/clock gets a new version with one more class"
sed 's/2\.0\.1/2.1.0/' "$here/project/packages/clock/composer.json" > packages/clock/composer.json
printf '<?php\n\nnamespace Acme\\Clock;\n\nclass Local\n{\n}\n' > packages/clock/src/Local.php
kill_updates .
run update -o
opens "-d ." 'Acme\Clock\Local' vendor/acme/clock/src/Local.php
loads . 'Shop\Home' 'Acme\Clock\Utc' 'Acme\Clock\Local' 'Acme\Log\File' Letter
validates .
