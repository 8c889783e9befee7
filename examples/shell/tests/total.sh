#!/bin/sh
test $((2 + 3)) -eq 5
