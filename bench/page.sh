#!/bin/sh
# How long it takes from a script of 512 steps to the frame in which its run is drawn: the page served, and as one file with the programs in it.
# It wants the proved programs, Chromium, and out/page.wasm, which page/wasm/build makes.
exec "$(dirname "$0")/../tests/page-in-chromium" --speed
