#!/usr/bin/env bash
# Two nodes, the mill and the baker, wired by two pipes. A neighbour of the mill (played by this script) offers it 5; the mill
# passes them on to the baker, who signs; the key comes back, and the mill pays. Each line below is one that a node was told
# or wrote; own money is the third number of a sheet. Account 1 of the mill is account 0 of the baker.
. "$(dirname "$0")/nodes.bash"
wire["mill 1"]="baker 0"
wire["baker 0"]="mill 1"
lock=48428bdb7ddd829410d6bbb924fdeb3a3d7e88c2577bffae073b990c6f061d08
key=0000000000000000000000000000000000000000000000000000000000000007

start mill
start baker
tell mill tick 0
tell baker tick 0
say '-- the offer, with its signature, from the neighbour of account 0'
tell mill 0 010300000001000000050000000a000148428bdb7ddd829410d6bbb924fdeb3a3d7e88c2577bffae073b990c6f061d08000000050000012c 020300000001
say '-- passed on to the baker, and signed by both'
tell mill pass 0 1 $lock 5 190
deliver
say '-- the baker has the key, and hands it to the mill'
tell baker 0 03$key
tell mill 1 03$key
say '-- the mill pays'
tell mill pay 1 $lock
deliver
stop mill
stop baker
say '-- started again, both send what they hold; each turns it away, and nothing is lost'
start mill
start baker
tell mill tick 1
tell baker tick 1
deliver
stop mill
stop baker
