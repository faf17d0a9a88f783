#!/usr/bin/env bash
# What an instant costs in which one thread generates, by how many others wait: waits_speed.sh PROGRAM [INSTANTS].
# PROGRAM is crates/loft_waits_speed/out/loft_waits_speed, which `rt run` or the gate builds. Each line has the number of
# the others, and the processor seconds of 20,000 instants, or of that many. It stands outside the gate.
set -eu
program=$(realpath "$1")
instants=${2:-20000}
TIMEFORMAT=%U
for waiting in 63 127 255 511 1023 2047 4095; do
    seconds=$({ time "$program" "$waiting" "$instants"; } 2>&1)
    echo "$waiting $seconds"
done
