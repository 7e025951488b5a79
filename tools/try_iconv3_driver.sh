#!/bin/sh
# Tries bench/iconv3_driver.c beside iconv(1): what it writes, where it stops, and what it says, with one thread and
# with four.
#
#   tools/try_iconv3_driver.sh
#
# It is skipped with a word where cc or iconv is missing.
set -u
here=$(CDPATH= cd -- "$(dirname -- "$0")" && pwd) || exit 2
for tool in cc iconv; do
    command -v $tool >/dev/null || {
        echo "skipped: iconv3_driver.c: $tool is missing (apt-get install gcc libc6-dev libc-bin)"
        exit 0
    }
done
folder=$(mktemp -d) || exit 2
trap 'rm -rf "$folder"' EXIT
trap 'exit 2' HUP INT TERM
cd "$folder" || exit 2
cc -O2 -Wall -Wextra -Werror -pthread -o driver "$here/../bench/iconv3_driver.c" || exit 1
failed=0

# tells whether a run ends with a status and says a line
judge() {
    said=$(./driver $1)
    status=$?
    if [ $status -ne "$2" ] || [ "$said" != "$3" ]; then
        echo "iconv3_driver $1: status $status and '$said', not $2 and '$3'"
        failed=1
    fi
}

i=0
while [ $i -lt 6000 ]; do
    printf 'line %d: caf\303\251, \346\227\245\346\234\254\n' $i
    i=$((i + 1))
done >long
printf 'caf\303' >cut
printf 'caf\351 au lait' >wrong
: >empty
for n in 1 2 3 4 5 6 7 8; do
    echo "UTF-8 UTF-16LE long long.$n"
done >list
cat >more <<'TXT'
# jobs

UTF-8 ISO-2022-JP long jp
UTF-8 UTF-16LE cut cut.out
UTF-8 UTF-16LE wrong wrong.out
UTF-8 UTF-16LE empty empty.out
UTF-8 KLINGON long none
UTF-8 UCS-4 absent no
TXT
iconv -f UTF-8 -t UTF-16LE long >wanted
sed 's/caf.*, //' long >plain
iconv -f UTF-8 -t ISO-2022-JP plain >plain.wanted
size=$(wc -c <long)
judge 'list' 0 "files 8 failed 0 read $((8 * size)) written $((8 * $(wc -c <wanted)))"
for n in 1 2 3 4 5 6 7 8; do
    cmp -s wanted long.$n || { echo "iconv3_driver: long.$n isn't what iconv writes"; failed=1; }
    rm long.$n
done
judge '-j 4 list' 0 "files 8 failed 0 read $((8 * size)) written $((8 * $(wc -c <wanted)))"
cmp -s wanted long.8 || { echo 'iconv3_driver -j 4: other bytes'; failed=1; }
judge '-c list' 0 "files 8 failed 0 read $((8 * size)) written $((8 * size))"
cmp -s long long.1 || { echo 'iconv3_driver -c: no copy'; failed=1; }
echo "UTF-8 ISO-2022-JP plain plain.out" >list
./driver list >said && cmp -s plain.out plain.wanted || { echo 'iconv3_driver: no return sequence'; failed=1; }
./driver more >said
[ $? -eq 1 ] && grep -q '^files 6 failed 5 ' said || {
    echo "iconv3_driver: of six files one converts: $(cat said)"
    failed=1
}
printf 'c\0a\0f\0' | cmp -s - cut.out && cmp -s cut.out wrong.out && [ ! -s empty.out ] || {
    echo 'iconv3_driver: what stands before a place is not there'
    failed=1
}
[ $failed -eq 0 ] && echo 'iconv3_driver.c: converts as iconv does, and says what failed'
exit $failed
