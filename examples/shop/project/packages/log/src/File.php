<?php

namespace Acme\Log;

class File
{
}
