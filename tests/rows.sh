#!/bin/sh
# Compares the rows that a program prints for each sample image with a file of samples/.
set -eu
for f in $(sed -n 's/:$//p' "$2"); do
    echo "$f:"
    "$1" "samples/$f"
done | diff "$2" -
echo "$1: the rows of all sample images are as expected"
