part=1
export part
/bin/true
./run-nothing 2> /dev/null
