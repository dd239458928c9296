<?php

namespace Acme\View;

class Html
{
}
