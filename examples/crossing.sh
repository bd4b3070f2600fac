#!/usr/bin/env bash
# Two nodes that propose at the same moment: the lines cross. Each turns the other's sheet away by 3, whole, and keeps its own
# next; nothing is lost, and after a start both still say the same. The account waits for a dispute.
. "$(dirname "$0")/nodes.bash"
wire["mill 1"]="baker 0"
wire["baker 0"]="mill 1"

start mill
start baker
tell mill tick 0
tell baker tick 0
say '-- each has an offer from a neighbour of its own'
tell mill 0 010300000001000000050000000a000148428bdb7ddd829410d6bbb924fdeb3a3d7e88c2577bffae073b990c6f061d08000000050000012c 020300000001
tell baker 1 010300000001000000050000000a0001887bf140ce0b6a497ed8db5c7498a45454f0b2bd644b0313f7a82acc084d0027000000050000012c 020300000001
say '-- each passes its offer on to the other, before it has heard of the other'
tell mill pass 0 1 48428bdb7ddd829410d6bbb924fdeb3a3d7e88c2577bffae073b990c6f061d08 5 190
tell baker pass 1 0 887bf140ce0b6a497ed8db5c7498a45454f0b2bd644b0313f7a82acc084d0027 5 190
say '-- the lines cross'
deliver
say '-- both stop and start again'
stop mill
stop baker
start mill
start baker
tell mill tick 1
tell baker tick 1
deliver
stop mill
stop baker
