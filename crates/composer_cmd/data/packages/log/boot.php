<?php // boot
