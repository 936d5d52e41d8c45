#!/usr/bin/env bash
# installed.sh FOLDER [RELEASE] installs what c/build.sh has put into FOLDER in a Debian that has nothing
# else (RELEASE is bookworm by default), as a new user would: by c/install.sh, with pkg-config, and as the
# documents describe. It runs the commands exactly as the documents have them. Finally it checks that
# nothing is left after the removal.
#
# The script needs root and debootstrap, and loads some 150 MB from a mirror of Debian.
set -eu
built=$(cd "$1" && pwd)
release=${2:-bookworm}
cd "$(dirname "$0")/../.."
root=$(mktemp -d)
chmod 755 "$root" # otherwise apt-get's own user can't read the files for the resolution of names
trap 'loops=$root/tmp/walk/loops; [ ! -f "$loops" ] || xargs -rn 1 losetup -d < "$loops" || true
    umount "$root/proc" "$root/sys" 2> /dev/null || true; rm -rf --one-file-system "$root"' EXIT
wanted=bzip2,g++,libc6-dev,make,musl-tools,pkg-config,python3,python3-pip,python3-setuptools,python3-venv,python3-wheel
debootstrap --variant=minbase --include=$wanted "$release" "$root" > "$root.log" 2>&1 ||
    { tail "$root.log" >&2; exit 1; }
rm "$root.log"
mkdir "$root/rlibreg" "$root/rlibreg/c"
cp -r docs python share "$root/rlibreg/"
cp -r c/*.{sh,h} c/{programs,install,tests} "$root/rlibreg/c/"
cp bench/trials/page.sh "$root/rlibreg/"
cp -rP "$built" "$root/rlibreg/c/out"

cat > "$root/walk.sh" << 'END'
set -eEuo pipefail
trap 'echo "failed: $BASH_COMMAND" >&2' ERR

. /rlibreg/page.sh
docs=/rlibreg/docs

# program PAGE NUMBER: prints one of the page's programs in C.
program() {
    awk -v number="$2" '/^```c$/ {block++; next} /^```$/ {inside = 0}
        block == number && /^\/\*/ {inside = 1} inside' "$docs/$1.md"
}
everything() {
    find / -xdev -path /proc -prune -o -print | sort
}

# The sources of Lua and LPeg, zlib and bzip2, as Debian has them: only the archives, because a mirror
# may lack the other files that its index names.
get_sources() {
    mkdir lua lua/lpeg lua-alone zlib bzip2
    (
        sed -n 's/^deb /deb-src /p' /etc/apt/sources.list > /etc/apt/sources.list.d/source.list
        apt-get update && apt-get source --tar-only --download-only lua5.4 lua-lpeg zlib bzip2 &&
            tar --strip-components=1 -C lua -xf lua5.4_*.orig.tar.gz &&
            tar --strip-components=1 -C lua/lpeg -xf lua-lpeg_*.orig.tar.gz &&
            tar --strip-components=1 -C lua-alone -xf lua5.4_*.orig.tar.gz &&
            tar --strip-components=1 -C zlib -xf zlib_*.orig.tar.* &&
            tar --strip-components=1 -C bzip2 -xf bzip2_*.orig.tar.*
    ) > sources.log 2>&1 || { tail -n 2 sources.log; rm -r lua lua-alone zlib bzip2; }
}

by_pkg_config() {
    echo "pkg-config: $(pkg-config --modversion rlibreg), $(pkg-config --cflags --libs rlibreg)"
    program C 1 > updater.c
    gcc -Wall -Wextra -o updater updater.c $(pkg-config --cflags --libs rlibreg)
    eval "$(commands $docs/PYTHON.md)"
    ./updater disk libone.so
    rlibreg list disk
    rlibreg bind disk program 0x10000 | grep object
    rm disk
}

by_python() {
    python3 -m doctest /rlibreg/docs/PYTHON.md
    echo "docs/PYTHON.md: as written, with $(python3 --version)"
    rm disk
}

# The module by itself, in an environment of its own, with the installed library.
by_wheel() {
    python3 -m venv --system-site-packages environment
    environment/bin/pip -q install --no-index --no-build-isolation /rlibreg/python
    environment/bin/python -m doctest /rlibreg/docs/PYTHON.md
    environment/bin/python -c 'import rlibreg
print("pip install:", rlibreg.__file__, rlibreg.version())'
    rm -r disk environment /rlibreg/python/build /rlibreg/python/rlibreg.egg-info
}

# Two libraries in C++ with an object each, the second of which needs the first, and a program.
objects() {
    cat > one.cc << 'CC'
#include <stdio.h>
#include <string.h>
extern "C" { char notes[80]; }
namespace {
struct Object {
    Object() { strcat(notes, "+" NAME " "); }
    ~Object() { puts("-" NAME); }
} object;
}
CC
    sed 's/char notes\[80\];/extern char notes[];/' one.cc > two.cc
    cat > main.c << 'C'
#include <stdio.h>
extern char notes[];
__attribute__((destructor)) static void own(void) { puts("-main"); }
int main(void) { return printf("%smain\n", notes) < 0; }
C
    rlibreg-g++ -O2 '-DNAME="one"' -shared -o libone.so one.cc
    rlibreg-g++ -O2 '-DNAME="two"' -shared -o libtwo.so two.cc libone.so
    rlibreg-gcc -O2 -o main main.c libtwo.so libone.so
    rlibreg format old 256 > /dev/null
    ./updater old libtwo.so libone.so
    rlibreg preload old libone.so
    rlibreg-run old main | tee said
    [ "$(tr '\n' ' ' < said)" = '+one +two main -main -two -one ' ]
}

# The output of rlibreg-tool for that disk, and the same for a larger disk.
tool() {
    rlibreg-tool info old
    rlibreg-tool check old
    rlibreg-tool file old libtwo.so | cmp - libtwo.so
    # The page's DISK, FILE, PROGRAM and lines, and an empty registry
    echo 'int one(void) { return 0; }' > b.c
    cat > alone.c << 'C'
extern int one(void);
void _start(void) {
    __asm__ volatile("syscall" : : "a"(60), "D"(one()));
    __builtin_unreachable();
}
C
    object='gcc -O1 -fPIC -nostdlib -fno-stack-protector -Wl,--hash-style=sysv'
    $object -shared -Wl,-soname,libb.so -o libb.so b.c
    $object -pie -o program alone.c libb.so
    ./updater disk libb.so
    rlibreg format other 4096
    {
        printf 'replace %s\n' "$(od -An -v -tx1 libb.so | tr -d ' \n')"
        printf 'bind 0x10000 %s\ncommit\n' "$(od -An -v -tx1 program | tr -d ' \n')"
    } > lines
    eval "$(commands $docs/TOOL.md)"
    rlibreg list old | tee listed
    rlibreg list new | cmp - listed
    rlibreg list other | cmp - listed
    echo 'docs/TOOL.md: as written'
    rm disk
}

lua() {
    [ -d ../lua ] || { echo "left out: Lua, whose source can't be had"; return 0; }
    ln -s ../lua/src ../lua/lpeg .
    program LINKING 1 > modules.c
    cat > script.lua << 'LUA'
local words = {}
for i = 1, 9 do words[i] = string.format("%d:%.3f", i, math.sin(i)) end
print(_VERSION, table.concat(words, " "))
print(pcall(error, "caught"))
print(coroutine.wrap(function(n) coroutine.yield(n + 1) end)(41), os.getenv("HOME"), 2^53, 7 // 2)
for line in io.lines(arg[0]) do io.write(#line, " ") end
print(select(2, pcall(require, "nowhere")))
os.exit(true, true)
LUA
    eval "$(commands $docs/LINKING.md)" > found
    musl-gcc -O2 -static -o lua.static src/lua.c $core
    {
        printf 'ok\nok\n'
        ./lua.static script.lua
        printf 'ok\n2\nok\n'
        sed -n 's/^#define VERSION *"\(.*\)"/\1/p' lpeg/lptypes.h
    } > wanted
    sed 1,2d found | head -n 1
    cmp wanted found
    (cd lpeg && LUA_PATH='./?.lua' rlibreg-run "$OLDPWD/disk" "$OLDPWD/lua" test.lua | tail -n 1)
    echo 'docs/LINKING.md: as written, and Lua prints what it prints where it is linked statically'
}

# by_table PROJECT FOLDER: builds the project by the command in the page's table.
by_table() {
    local command
    command=$(sed -n "s/^| $1 [0-9.]* | \`\([^\`]*\)\` .*/\1/p" /rlibreg/docs/LINKING.md)
    cp -r "../$2" .
    (cd "$2" && eval "$command") > log 2>&1 || { tail log >&2; return 1; }
}

# A registry on a partition, its copy, the switch, and growing, by the page's commands, over loop devices
# in place of partitions. What the system reports about a device is read in /proc and /sys.
partitions() {
    local page=$docs/DEVICES.md node number
    mount -t proc proc /proc
    mount -t sysfs sysfs /sys
    mknod /dev/loop-control c 10 237
    for number in {0..63}; do mknod "/dev/loop$number" b 7 "$number"; done
    mkdir -p /dev/disk/by-partlabel /var/cache/rlibreg
    : > loops
    for node in rlibreg_a rlibreg_b rlibreg_c; do
        eval "$(commands $page Partitions fallocate)" || break
        echo "$loop" >> loops
        ln -s "$loop" /dev/disk/by-partlabel/$node
        mv file $node
    done 2> lost
    if [ "$(wc -l < loops)" = 3 ]; then
        eval "$(commands $page Partitions a=/dev)"
        rlibreg install $a libone.so
        printf 'install %s\ncommit\n' "$(od -An -v -tx1 libtwo.so | tr -d ' \n')" > changes
        eval "$(commands $page Partitions 'rlibreg-switch $a')"
        echo commit > changes
        eval "$(commands $page Partitions c=/dev)"
        rlibreg-tool digest /etc/rlibreg/disk | cmp - <(sha256sum libone.so libtwo.so)
        [ "$(rlibreg-run /etc/rlibreg/disk main | head -n 1)" = '+one +two main' ]
        echo 'docs/DEVICES.md: partitions as written, over loop devices'
    else
        echo "left out: partitions, since there are no loop devices: $(cat lost)"
    fi
    xargs -rn 1 losetup -d < loops
    umount /proc /sys
    rm -rf loops rlibreg_* /dev/loop* /dev/disk /var/cache/rlibreg /etc/rlibreg
}

# Projects without changes: builds three by their own commands, and runs them.
projects() {
    [ -d ../zlib ] || { echo "left out: projects, whose sources can't be had"; return 0; }
    by_table zlib zlib
    by_table bzip2 bzip2
    by_table Lua lua-alone
    ./updater disk zlib/libz.so.1 bzip2/libbz2.so.1.0
    seq 9999 > numbers
    rlibreg-run disk zlib/minigzipsh < numbers | gzip -d | cmp - numbers
    rlibreg-run disk bzip2/bzip2-shared < numbers > packed
    python3 -c 'import bz2; assert bz2.open("packed").read() == open("numbers", "rb").read()'
    rlibreg-run disk lua-alone/src/lua -v
    echo 'docs/LINKING.md: zlib, bzip2 and Lua by their own commands'
}

cd /tmp
get_sources
everything > before
/rlibreg/c/install.sh /usr/local
ldconfig
mkdir walk
cd walk
by_pkg_config
by_python
by_wheel
/rlibreg/c/example.sh 2> /dev/null | tail -n 1
objects
partitions
tool
lua
projects
cd ..
rm -r walk
/rlibreg/c/install.sh --remove /usr/local/share/rlibreg/installed
ldconfig
everything > after
diff before after | grep -v ' /tmp/\(before\|after\)$' | grep '^[<>]' && exit 1
echo 'left after the removal: nothing'
END
env -i PATH=/usr/local/sbin:/usr/local/bin:/usr/sbin:/usr/bin HOME=/ chroot "$root" bash /walk.sh
