#!/usr/bin/env bash
# plugin.sh [FOLDER] builds into FOLDER (c/out) the plugin with which gcc emulates thread-local data for
# rlibreg-gcc. A plugin fits only one version of gcc: that of the gcc which musl-gcc starts, or of
# COMPILER. The build needs g++ and the headers for plugins of that gcc. For gcc 12 they are in Debian's
# gcc-12-plugin-dev.
set -eu
here=$(cd "$(dirname "$0")" && pwd)
folder=${1:-$here/out}
compiler=${COMPILER:-$(sed -n 's/.*REALGCC:-\([^}]*\)}.*/\1/p' "$(command -v musl-gcc)")}
compiler=${compiler:-gcc}
headers=$("$compiler" -print-file-name=plugin)/include
if [ ! -f "$headers/gcc-plugin.h" ]; then
    echo "c/plugin.sh: the headers of plugins of $compiler $("$compiler" -dumpversion) aren't here" >&2
    exit 1
fi
plugin=$folder/rlibreg_tls-$("$compiler" -dumpfullversion).so
g++ -std=c++11 -O2 -fPIC -fno-rtti -fno-exceptions -Wall -Wextra -shared -s -isystem "$headers" \
    -o "$plugin.new" "$here/driver/rlibreg_tls.cc"
mv "$plugin.new" "$plugin"
echo "built $plugin"
