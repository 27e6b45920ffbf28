#!/bin/sh
set -f
cd src; pwd > ../where; cd ..
while read -r line; do :; done < words.txt
cat <<END > out/here
a here document of $(id -un)
END
(echo one; echo two) | sort -r > out/sorted 2>&1
for n in 1 2 3; do echo $n >> log; : > out/empty$n; done
test -r words.txt && [ -w words.txt ] && mv log out/log
trap 'rm -f out/empty1' EXIT
. ./part.sh
sleep 0 & wait
exec 5<> words.txt; echo over >&5; exec 5>&-
command -v nothere || type ls
umask 077; mkdir made; rmdir made
exec ls out
