#!/bin/sh
# Runs the built program on copies of the examples, and compares output, status and the files of `out` byte for byte.
set -eu
top=$(cd "$(dirname "$0")/.." && pwd)
program=$(sh "$top/scripts/built.sh")
work=$(mktemp -d)
mounted=
trap '[ -z "$mounted" ] || umount "$mounted" || true; rm -rf "$work"' EXIT
failed=0

# A fresh copy of the example, as the current folder.
fresh() {
    rm -rf "$work/build"
    cp -R "$top/examples/$1" "$work/build"
    cd "$work/build"
}

# Runs the program with the words behind the first three arguments: a name, the status and the output that are wanted.
expect() {
    name=$1
    status=$2
    printf '%s\n' "$3" >"$work/wanted"
    shift 3
    ended=0
    "$program" "$@" >"$work/got" || ended=$?
    if [ "$ended" != "$status" ]; then
        echo "$name: status $ended in place of $status"
        failed=1
    fi
    same "$name: output" "$work/wanted" "$work/got"
}

# Compares two files.
same() {
    if ! cmp -s "$2" "$3"; then
        echo "$1: differs"
        failed=1
    fi
}

# One byte of a file, by its offset, becomes the one with this octal number.
set_byte() {
    printf "\\$3" | dd of="$1" bs=1 seek="$2" conv=notrunc 2>/dev/null
}

# The class of a small class file has another name.
rename_class() {
    {
        head -c 12 "$1"
        printf "\\$(printf '%03o' "${#2}")%s" "$2"
        tail -c +15 "$1"
    } >"$work/changed"
    mv "$work/changed" "$1"
}

# The example with bytes set by their offsets and octal numbers, behind a name and the line that it is refused with.
broken() {
    fresh first
    name=$1
    line=$2
    shift 2
    while [ $# -gt 0 ]; do
        set_byte classes/A.class "$1" "$2"
        shift 2
    done
    expect "$name" 3 "$line" -j 1 show a
}

# The length of the content of a file, a colon, the content and a comma.
net_file() {
    printf '%d:' "$(wc -c <"$1")"
    cat "$1"
    printf ','
}

net() {
    printf '%s' "$1" >"$work/field"
    net_file "$work/field"
}

hash() {
    sha256sum "$1" | cut -d ' ' -f 1
}

# The row of the class files of the current folder: the path and the bytes of each, in path order.
row() {
    net W
    for file in classes/*.class; do
        net "$file"
        net_file "$file"
    done
}

# The input hash of a task without inputs: its class and its name.
input_hash() {
    row >"$work/row"
    { net method1; net "$1"; net "$2"; net '()I'; net_file "$work/row"; } >"$work/method"
    { net input1; net "$2"; net cached; net 10000000; net "$(hash "$work/method")"; } >"$work/input"
    hash "$work/input"
}

# The input hash of a task with one input: its class, its name and the input's value.
linked_hash() {
    row >"$work/row"
    printf '%s' "$3" >"$work/value"
    { net method1; net "$1"; net "$2"; net '(I)I'; net_file "$work/row"; } >"$work/method"
    {
        net input1; net "$2"; net cached; net 10000000; net "$(hash "$work/method")"
        net v; net "$(hash "$work/value")"
    } >"$work/input"
    hash "$work/input"
}

# The entry of a task: its name, its generation, its input hash and its value.
entry() {
    printf '{"dest":%s,"files":[],"input":"%s","task":"%s","value":%s,"version":1}' "$2" "$3" "$1" "$4"
}

# The entry and the log of the task are in `out` as wanted: its name, its generation, its input hash and its value.
expect_entry() {
    name=$1
    shift
    entry "$@" >"$work/entry"
    : >"$work/log"
    same "$name: entry of $1" "$work/entry" "out/$1.json"
    same "$name: log of $1" "$work/log" "out/$1.log"
}

# The entries and the logs of these tasks, and nothing else but the lock, are in `out`.
expect_files() {
    name=$1
    shift
    for task in "$@"; do
        printf 'out/%s.json\nout/%s.log\n' "$task" "$task"
    done >"$work/wanted_files"
    find out -type f ! -name .lock | sort >"$work/files"
    same "$name: files of out" "$work/wanted_files" "$work/files"
}

fresh first
hash=$(input_hash A a)
expect "first run" 0 5 -j 1 show a
expect_entry "first run" a 1 "$hash" 5
expect_files "first run" a
inode=$(ls -i out/a.json)
expect "second run" 0 5 -j 1 show a
expect_entry "second run" a 1 "$hash" 5
expect_files "second run" a
if [ "$(ls -i out/a.json)" != "$inode" ]; then
    echo "second run: the entry was put again"
    failed=1
fi

entry a 1 "$hash" 6 >out/a.json
expect "a read of the entry" 0 6 -j 1 show a

set_byte classes/A.class 139 002
expect "a constant of -1" 0 -1 -j 1 show a
expect_entry "a constant of -1" a 2 "$(input_hash A a)" -1
rm out/a.json
expect "a lost entry" 0 "a ran: missing
-1" -j 1 --explain show a
expect "a kept entry" 0 -1 -j 1 --explain show a

fresh first
expect "other words" 2 "not built: words" -j 2 show a
expect "no words" 2 "not built: words"
expect "another task" 2 "no task: b" -j 1 show b
set_byte classes/A.class 5 001
expect "another minor version" 3 "not built: classes/A.class" -j 1 show a
set_byte classes/A.class 5 000
mv classes/A.class classes/B.class
expect "a class in another's place" 3 "not built: classes/B.class" -j 1 show a
cp "$top/examples/first/classes/A.class" classes
set_byte classes/B.class 13 102
expect "two classes of one task" 3 "build: duplicate task a" -j 1 show a
rm -r classes
expect "no class" 2 "no task: a" -j 1 show a
if [ -e out/a.json ]; then
    echo "a refused build: there is an entry"
    failed=1
fi

fresh first
mkdir -p out/a.dest/g1 out/a.dest/g01
touch out/a.dest/g1/x out/a.dest/g01/x out/a.dest/readme out/other
expect "an unpublished generation" 0 5 -j 1 show a
expect_entry "an unpublished generation" a 1 "$hash" 5
printf 'out/%s\n' a.dest/g01/x a.dest/readme a.json a.log other >"$work/wanted_files"
find out -type f ! -name .lock | sort >"$work/files"
same "an unpublished generation: files of out" "$work/wanted_files" "$work/files"

broken "a float constant" "build: A.a()I: float used" 139 013
broken "an opcode that is none" "build: A.a()I: bad code at 0" 139 312
broken "a jump that is cut short" "build: A.a()I: bad code at 0" 139 247
broken "an empty stack" "build: A.a()I: bad frame at 0" 139 127
broken "a return of nothing" "build: A.a()I: bad frame at 0" 139 254
broken "a long on a stack of one slot" "build: A.a()I: bad frame at 0" 139 011
broken "code without an end" "build: A.a()I: bad frame at 1" 140 000
broken "a float result" "build: A.f()F: float used" 42 146 48 106
broken "no class file" "build: classes/A.class: bad magic" 0 000
broken "an old class file" "build: classes/A.class: bad major 51" 7 063
broken "a constant too many" "build: classes/A.class: bad tag 0 at 105" 9 014
broken "a text that is no UTF-8" "build: classes/A.class: bad text at 10" 13 200
broken "a super class that is a text" "build: classes/A.class: bad index at 109" 110 005
broken "code of no length" "build: classes/A.class: bad attribute at 125" 138 000
broken "code twice" "build: classes/A.class: second attribute at 145" 146 007
broken "a method without code" "build: classes/A.class: code missing at 117" 126 005
broken "a super class that isn't there" "build: missing super java/lang/Objecx" 35 170
broken "a class above itself" "build: cyclic super A" 110 002

fresh first
{ head -c 139 classes/A.class; printf '\247\177\377'; tail -c +142 classes/A.class; } >"$work/changed"
mv "$work/changed" classes/A.class
set_byte classes/A.class 130 017
set_byte classes/A.class 138 003
expect "a jump out of the code" 3 "build: A.a()I: bad jump at 0" -j 1 show a

# The call site's constant is behind the others, and the class has no bootstrap methods.
fresh first
{
    head -c 105 classes/A.class
    printf '\022\000\000\000\014\014\000\005\000\006'
    tail -c +106 classes/A.class | head -c 34
    printf '\272\000\013\000\000\254'
    tail -c +142 classes/A.class
} >"$work/changed"
mv "$work/changed" classes/A.class
set_byte classes/A.class 9 015
set_byte classes/A.class 140 022
set_byte classes/A.class 148 006
expect "a call site without a bootstrap method" 3 "build: A.a()I: unknown bootstrap at 0" -j 1 show a

fresh first
printf '\000' >>classes/A.class
expect "a byte more" 3 "build: classes/A.class: bytes left at 164" -j 1 show a
left=0
while [ "$left" -lt 164 ]; do
    head -c "$left" "$top/examples/first/classes/A.class" >classes/A.class
    ended=0
    "$program" -j 1 show a >"$work/got" || ended=$?
    if [ "$ended" != 3 ]; then
        echo "a file cut to $left bytes: status $ended in place of 3"
        failed=1
    fi
    left=$((left + 1))
done
head -c 9 "$top/examples/first/classes/A.class" >classes/A.class
expect "a cut class file" 3 "build: classes/A.class: cut short at 8" -j 1 show a

fresh first
mkdir classes/x
cp classes/A.class classes/x
expect "one class in two files" 3 "build: duplicate class A" -j 1 show a
rm -r classes/x
rename_class classes/A.class java/lang/String
expect "a class of the library" 3 "build: duplicate class java/lang/String" -j 1 show a

fresh first
set_byte classes/A.class 139 013
rename_class classes/A.class "$(printf 'A\001\\')"
expect "a name that is escaped" 3 'build: A\u0001\\.a()I: float used' -j 1 show a

fresh first
mv classes/A.class "classes/$(printf 'A\001\\').class"
expect "a path that is escaped" 3 'not built: classes/A\u0001\\.class' -j 1 show a

fresh linked
expect "a linked task" 0 10 -j 1 show b
expect_entry "a linked task" a 1 "$(input_hash A a)" 5
expect_entry "a linked task" b 1 "$(linked_hash B b 5)" 10
expect_files "a linked task" a b
expect "a kept linked task" 0 10 -j 1 --explain show b
set_byte classes/A.class 139 007
expect "an edit of the input" 0 "a ran: changed
b ran: changed
9" -j 1 --explain show b
expect_entry "an edit of the input" a 2 "$(input_hash A a)" 4
expect_entry "an edit of the input" b 2 "$(linked_hash B b 4)" 9
rm out/a.json
expect "a lost entry of the input" 0 "a ran: missing
9" -j 1 --explain show b
expect_entry "a lost entry of the input" b 2 "$(linked_hash B b 4)" 9
rm -r out
set_byte classes/B.class 155 144
expect "the input alone" 0 4 -j 1 show a
expect_files "the input alone" a
expect "a difference" 0 -1 -j 1 show b
set_byte classes/B.class 118 143
expect "an input that no file has" 3 "build: unknown input c of b" -j 1 show b
set_byte classes/B.class 118 142
expect "a task that is its own input" 3 "build: cycle through b" -j 1 show a
rm classes/A.class
set_byte classes/B.class 118 141
expect "an input whose file is gone" 3 "build: unknown input a of b" -j 1 show b

# ---- real folders

# The file is there and has this content.
expect_content() {
    printf '%s' "$3" >"$work/wanted_content"
    same "$1: content of $2" "$work/wanted_content" "$2"
}

# A cause that a command ends with, and the command once the cause is gone: a name, the status and the line.
expect_fault() {
    rm -f out/a.json
    expect "$1" "$2" "$3" -j 1 show a
}

expect_healed() {
    expect "$1, once it is gone" 0 5 -j 1 show a
}

fresh first
mkdir -p "$work/outside/g1" out
printf kept >"$work/outside/g1/f"
ln -s "$work/outside" out/b.dest
ln -s . out/m
expect "links in out" 0 5 -j 1 show a
mv out/a.json out/kept
ln -s kept out/a.json
expect "a link to an entry" 0 5 -j 1 --explain show a
expect "links in out, kept" 0 5 -j 1 show a
expect_content "links in out" "$work/outside/g1/f" kept
[ -L out/b.dest ] && [ -L out/m ] && [ -L out/a.json ] || {
    echo "links in out: one is gone"
    failed=1
}

fresh first
ln -s . self
ln -s .. classes/up
expect "links to folders around" 0 5 -j 1 show a
mkdir more
cp classes/A.class more
ln -s ../more classes/again
expect "a folder by a link" 3 "build: duplicate class A" -j 1 show a

fresh first
mkdir -p out/.put classes/outer/x/y/z
cp classes/A.class classes/outer/x/y/z/A.class
printf part >out/.put/1-1
expect "a deep class file" 3 "build: duplicate class A" -j 1 show a
[ ! -e out/.put/1-1 ] || {
    echo "a put that was stopped: its file is there"
    failed=1
}

fresh first
mkdir out
printf mine >out/.put
expect_fault "a file in place of the folder for puts" 4 "store fault"
expect_content "a file in place of the folder for puts" out/.put mine
rm out/.put
expect_healed "a file in place of the folder for puts"
rm -r out/.put
mkdir "$work/elsewhere"
ln -s "$work/elsewhere" out/.put
expect_fault "a link in place of the folder for puts" 4 "store fault"
rm out/.put
expect_healed "a link in place of the folder for puts"
rm out/.lock
mkdir out/.lock
expect_fault "a folder in place of the lock" 4 "store fault"
rmdir out/.lock
expect_healed "a folder in place of the lock"
ill=$(printf 'x\377')
touch "out/$ill"
expect_fault "a name in out that is no text" 4 "store fault"
rm "out/$ill"
expect_healed "a name in out that is no text"
touch "classes/$ill"
expect_fault "a name of a source that is no text" 5 "workspace fault"
rm "classes/$ill"
expect_healed "a name of a source that is no text"

# An edit makes the command put an entry, which is refused; the entry before stands, and no file of the put is left: a name.
expect_unput() {
    cp out/a.json "$work/entry_before"
    set_byte classes/A.class 139 007
    expect "$1" 4 "store fault" -j 1 show a
    set_byte classes/A.class 139 010
    same "$1: entry" "$work/entry_before" out/a.json
    [ -z "$(find out/.put -type f)" ] || {
        echo "$1: the file of a put is left"
        failed=1
    }
}

# The same edit is put once the cause is gone.
expect_put() {
    set_byte classes/A.class 139 007
    expect "$1, once it is gone" 0 4 -j 1 show a
    set_byte classes/A.class 139 010
}

# A small file system of its own on a folder of the build.
mount_on() {
    mount -t tmpfs -o size=64k tmpfs "$work/build/$1" && mounted="$work/build/$1"
}

unmount() {
    umount "$mounted" && mounted=
}

fresh first
mkdir out
if [ "$(id -u)" = 0 ] && mount_on out 2>/dev/null; then
    expect "an out of its own" 0 5 -j 1 show a
    expect_entry "an out of its own" a 1 "$(input_hash A a)" 5
    dd if=/dev/zero of=out/filler bs=4096 2>/dev/null || true
    expect_unput "a full disk"
    rm out/filler
    expect_put "a full disk"
    expect "a full disk, before it is only read" 0 5 -j 1 show a
    mount -o remount,ro "$mounted"
    expect "an out that is only read, without a put" 0 5 -j 1 show a
    expect_unput "an out that is only read"
    mount -o remount,rw "$mounted"
    expect_put "an out that is only read"
    unmount
    fresh first
    expect "before the folder for puts is elsewhere" 0 5 -j 1 show a
    mount_on out/.put
    expect_unput "a folder for puts on another file system"
    unmount
    expect_put "a folder for puts on another file system"
else
    echo "a full disk, another file system: not tried, this user may mount none"
fi

# Programs side by side over one folder, each of which runs the task anew.
beside() {
    runs=0
    while [ "$runs" -lt 10 ]; do
        rm -f out/a.json
        "$program" -j 1 show a
        runs=$((runs + 1))
    done >"$work/beside.$1" 2>&1
}

fresh first
for loop in 1 2 3 4 5 6 7 8; do
    beside "$loop" &
done
wait
cat "$work"/beside.* | sort | uniq -c | tr -s ' ' >"$work/told"
echo " 80 5" >"$work/wanted_told"
same "programs side by side" "$work/wanted_told" "$work/told"

# Without leave to read or write: as another user where this one is root, who has leave for all.
fresh first
expect "before leave is taken" 0 5 -j 1 show a
cp "$program" "$work/mill"
printf '#!/bin/sh\nexec "%s" "$@"\n' "$work/mill" >"$work/other"
if [ "$(id -u)" = 0 ] && command -v setpriv >/dev/null; then
    chown -R 65534 "$work/build"
    printf '#!/bin/sh\nexec setpriv --reuid=65534 --regid=65534 --clear-groups "%s" "$@"\n' "$work/mill" >"$work/other"
fi
if [ "$(id -u)" = 0 ] && ! command -v setpriv >/dev/null; then
    echo "without leave: not tried, this user is root and there is no setpriv"
else
    chmod 755 "$work" "$work/mill" "$work/other"
    program="$work/other"
    for place in classes classes/A.class; do
        chmod 000 "$place"
        expect_fault "no leave to read $place" 5 "workspace fault"
        chmod 755 "$place"
        expect_healed "no leave to read $place"
    done
    for place in out/.put out; do
        chmod 555 "$place"
        [ "$place" = out ] || rm -f out/a.json
        cp out/a.log "$work/log_before"
        set_byte classes/A.class 139 007
        expect "no leave to write in $place" 4 "store fault" -j 1 show a
        set_byte classes/A.class 139 010
        same "no leave to write in $place: log" "$work/log_before" out/a.log
        chmod 755 "$place"
        expect_healed "no leave to write in $place"
    done
    if [ "$(id -u)" = 0 ]; then
        chown 0 out/.put
        expect_unput "a folder for puts of another user"
        chown 65534 out/.put
        expect_put "a folder for puts of another user"
    else
        echo "a folder for puts of another user: not tried, this user may give none away"
    fi
fi

# The sources that builds compile against have the methods of the tables, and compile.
if command -v python3 >/dev/null; then
    python3 -B "$top/scripts/compare_api.py" >"$work/api" || {
        cat "$work/api"
        failed=1
    }
else
    echo "api: not compared, no python3"
fi
# The document of definitions names what stands in specs/.
if command -v python3 >/dev/null; then
    python3 -B "$top/scripts/check_names.py" || failed=1
fi
if command -v javac >/dev/null; then
    javac -Xlint:all -Werror -d "$work/compiled" "$top"/api/mill/*.java || failed=1
fi

if [ "$failed" = 0 ]; then
    echo "end to end: passed"
fi
exit "$failed"
