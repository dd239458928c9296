<?php

namespace Acme\Checks;

class Check
{
}
