#!/usr/bin/env bash
# examples/menu.sh: writes the sample question to standard output. The menu has two sections with dishes, each dish with a price; the names are 1 menu,
# 2 section, 3 dish, 4 price. The twig asks for a section with a price anywhere below it.
set -eu
. "$(dirname "$0")/tags.sh"
dish() { opens 3; opens 4; closes; closes; }

opens 1
opens 2; dish; dish; closes
opens 2; dish; closes
closes

opens 2; opens 4; closes; closes
