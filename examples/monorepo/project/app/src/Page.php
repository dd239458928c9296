<?php

namespace Site;

class Page
{
}
