#!/bin/sh
# Tests of start_stop.ladder, one a line: sh examples/start_stop.sh says what differs, and ends with status 4 at the first
# test that fails.
set -e
cd "$(dirname "$0")"
../plc eval start_stop.ladder START=100 STOP=001 RUN==110 --chart
../plc eval start_stop.ladder START=11 STOP=10 RUN==01 --chart
../plc eval start_stop.ladder START=0 RUN=1 RUN==1 --chart
