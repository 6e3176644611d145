#!/bin/sh
# Prints a trace of 2,850 cost lines: 65,550 bytes, 23 more than the report program takes.
yes 0600000000000100000000 | head -n 2850
