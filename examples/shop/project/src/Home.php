<?php

namespace Shop;

class Home
{
}
