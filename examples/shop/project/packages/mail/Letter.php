<?php

class Letter
{
}
