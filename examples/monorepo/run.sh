#!/bin/sh
# A repository with the project in `app` and its packages beside it: it is installed from above, without what is for development and
# then with it; updates are killed and ended by `recover`.
set -eu
here=$(CDPATH= cd -- "$(dirname -- "$0")" && pwd -P)
. "$here/../common.sh"
begin "$here/project"

run -d app install --no-dev
opens "-d app" 'Site\Page' app/src/Page.php
opens "-d app" 'Acme\Router\Route' app/vendor/acme/router/src/Route.php
opens "-d app" 'Acme\View\Html' app/vendor/acme/view/lib/Acme/View/Html.php
run -d app install -o
opens "-d app" 'Acme\Checks\Check' app/vendor/acme/checks/src/Check.php
run -d app check
loads app 'Site\Page' 'Acme\Router\Route' 'Acme\View\Html' 'Acme\Checks\Check'
validates app

echo "the package acme/router gets a new version"
sed 's/1\.4\.0/1.5.0/' "$here/project/packages/router/composer.json" > packages/router/composer.json
kill_updates app
run -d app update -a
run -d app lookup 'Acme\Router\Route'
loads app 'Site\Page' 'Acme\Router\Route' 'Acme\View\Html' 'Acme\Checks\Check'
validates app
