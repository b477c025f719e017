#!/bin/sh
# Writes each fenced block of a page to a file of its own: FOLDER/01.c, FOLDER/02.sh, .. by its place on the page and its language.
#
# usage: blocks.sh PAGE FOLDER
set -eu
mkdir -p "$2"
awk -v folder="$2" '
    /^```/ && file == "" { file = sprintf("%s/%02d.%s", folder, ++blocks, substr($0, 4)); printf "" > file; next }
    /^```/ { close(file); file = ""; next }
    file != "" { print > file }
    END { if (file != "") { print "FAILED: a block has no end" > "/dev/stderr"; exit 1 } }' "$1"
