# What is installed: header, library, pkg-config file and command line, each where it is looked for.
ok "make install" "libnekahuiro.a" make -C "$root" install PREFIX="$folder/in stalled" CARGO_TARGET_DIR="$(dirname "$(dirname "$binary")")"
holds "the header" cmp "$root/include/nekahuiro.h" "in stalled/include/nekahuiro.h"
holds "the header for devices" cmp "$root/include/nekahuiro_device.h" "in stalled/include/nekahuiro_device.h"
holds "the header of edition 2" cmp "$root/include/nekahuiro_edition2.h" "in stalled/include/nekahuiro_edition2.h"
holds "the library of edition 2" cmp "$root/target/staticlib/libnekahuiro_edition2.a" "in stalled/lib/libnekahuiro_edition2.a"
holds "the header for pages that tear" cmp "$root/include/nekahuiro_pairs.h" "in stalled/include/nekahuiro_pairs.h"
holds "the header for devices that tear" cmp "$root/include/nekahuiro_device_pairs.h" "in stalled/include/nekahuiro_device_pairs.h"
holds "the library for pages that tear" cmp "$root/target/staticlib/libnekahuiro_pairs.a" "in stalled/lib/libnekahuiro_pairs.a"
holds "the library" cmp "$root/target/staticlib/libnekahuiro.a" "in stalled/lib/libnekahuiro.a"
ok "the command line, as it is called" "^  nekahuiro play STORE EVENTS " "in stalled/bin/nekahuiro" help
holds "and not as the script is" bash -c "! grep -q ./nekahuiro out"
fails "a message, as it is called" 2 "^  try .nekahuiro demo. or .nekahuiro help.$" "in stalled/bin/nekahuiro"
ok "it plays" "record 3 is 0000A500" "in stalled/bin/nekahuiro" demo
make -s -C "$root" install PREFIX="$folder/plain" CARGO_TARGET_DIR="$(dirname "$(dirname "$binary")")" >out 2>err
version=$(sed -n 's/^version = "\(.*\)"/\1/p' "$root/rust/Cargo.toml")
holds "the pkg-config file has the version" grep -qx "Version: $version" plain/lib/pkgconfig/nekahuiro.pc
if command -v pkg-config >/dev/null; then flags=$(PKG_CONFIG_PATH="$folder/plain/lib/pkgconfig" pkg-config --cflags --libs nekahuiro)
else flags="-I$folder/plain/include -L$folder/plain/lib -lnekahuiro"; fi
# shellcheck disable=SC2086 # the options are words
ok "a C program with what is installed" "^  it is lost: the stamp of record 3 is still 0, and at minute 5 the record is live$" \
    bash -c "cc -Wall -Werror '$root/examples/c/power_cut.c' $flags -o power_cut && ./power_cut"
holds "its sentences say what was found" grep -qx "  its age is -2 minutes" out
ok "a C program on pages that tear" "^all results are right$" bash -c "cc -Wall -Werror '$root/examples/c/pairs.c' $flags -lnekahuiro_pairs -o pairs && ./pairs"
ok "a C program with both libraries" "^all results are right$" bash -c "cc -Wall -Werror '$root/examples/c/edition2.c' $flags -lnekahuiro_edition2 -o edition2 && ./edition2"
sed 's/NEKAHUIRO_AHEAD);/NEKAHUIRO_STALE);/' "$root/examples/c/power_cut.c" >untrue.c
ok "a sentence that isn't true is not told as true" "^NOT SO:   it survives: .* \(1, and 2 is due\)$" bash -c "cc $flags untrue.c $flags -o untrue && ! ./untrue >told; cat told"
holds "make uninstall" make -s -C "$root" uninstall PREFIX="$folder/plain"
holds "it leaves nothing" test -z "$(find plain -type f)"
