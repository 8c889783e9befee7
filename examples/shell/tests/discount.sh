#!/bin/sh
test $((2 + 3 - 1)) -eq 4
