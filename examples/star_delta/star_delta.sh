#!/bin/sh
# Tests of star_delta.ladder, one a line, and its claims: sh examples/star_delta/star_delta.sh shows them, and ends with
# status 4 at the first that fails.
set -e
cd "$(dirname "$0")"
plc=../../plc
# From star to delta: star for 5 s, and 100 ms with neither.
$plc eval star_delta.ladder --dt 50 START=10 KM1==1*104 KM3==1*100,0*4 KM2==0*102,1*2 --chart
# STOP while it starts up, and a new start from the beginning.
$plc eval star_delta.ladder --dt 1000 START=1000100 STOP=0010000 KM1==1100111 KM3==1100111 KM2==0000000 --chart
# The overload relay trips in delta. It doesn't start again by itself.
$plc eval star_delta.ladder --dt 1000 START=1000000000 F1=000000010 KM1==1111111000 KM2==0000001000 KM3==1111100000 --chart
# START is held down: it changes nothing.
$plc eval star_delta.ladder --dt 1000 START=1 KM1==1*8 KM3==1*5,0*3 KM2==0*6,1*2 --chart
# What must never be, every 50 ms.
$plc verify star_delta.ladder --dt 50 --never SHORT --never RUNS_ON --never TOO_SOON
