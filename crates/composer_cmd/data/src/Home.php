<?php namespace App; class Home {}
