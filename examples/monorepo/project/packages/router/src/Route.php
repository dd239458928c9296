<?php

namespace Acme\Router;

class Route
{
}
