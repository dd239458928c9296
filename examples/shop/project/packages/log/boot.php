<?php

define('ACME_LOG', 'ready');
