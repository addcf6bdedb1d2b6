#!/bin/sh
# Makes the library for callers of C of what is proved in crates/asn1x_c, in the folder OUT:
#
#     libasn1x.a     static, with what the kit brings for memory
#     libasn1x.so    shared, which shows the calls of include/asn1x.h alone
#
#     install/library.sh OUT
#
# It needs cc, ar and rt, and crates/asn1x_c built.
set -eu

[ $# = 1 ] || { echo 'usage: install/library.sh OUT' >&2; exit 2; }
top=$(cd "$(dirname "$0")/.." && pwd)
built=$top/crates/asn1x_c/out/libasn1x_c.a
[ -f "$built" ] || { echo "library: $built is missing: \"make install\" proves and builds it" >&2; exit 2; }
for tool in cc ar rt; do
    command -v "$tool" >/dev/null || { echo "library: $tool is missing" >&2; exit 2; }
done
kit=$(dirname "$(rt doc)")/c

mkdir -p "$1"
cd "$1"
rm -f libasn1x.a
ar -M <<EOF
create libasn1x.a
addlib $built
addlib $kit/liblibc_c.a
addlib $kit/libos_c.a
save
end
EOF
echo '{ global: asn1x_*; local: *; };' >libasn1x.map
cc -shared -o libasn1x.so -Wl,-soname,libasn1x.so.0 -Wl,--version-script,libasn1x.map -Wl,--gc-sections \
    -Wl,--whole-archive "$built" -Wl,--no-whole-archive "$kit/liblibc_c.a" "$kit/libos_c.a"
rm libasn1x.map
