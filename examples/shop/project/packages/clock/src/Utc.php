<?php

namespace Acme\Clock;

class Utc
{
}
