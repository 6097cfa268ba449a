# The script ./nekahuiro: it builds only what has to be built, and says so. Prover and cargo are played by two scripts.
mkdir -p tools tree/tools tree/crates/{laws,nekahuiro_c,nekahuiro_edition2_c,nekahuiro_pairs_c}/src tree/rust/{cli,history,lists,nekahuiro,player,tuned}
cp "$run" tree/; cp "$root/tools/archives" tree/tools/
for tool in bash dirname readlink find awk tee grep head tail mkdir touch cat cp mv chmod sleep uname basename; do ln -s "$(command -v $tool)" tools/; done
text '# Layers\nlaws:\nrules: laws\nnekahuiro: laws rules\nexample_worked: nekahuiro\nnekahuiro_edition2: rules\n' tree/crates.txt
text 'nekahuiro_c staticlib: rules nekahuiro\nnekahuiro_edition2_c staticlib: nekahuiro_edition2\nnekahuiro_pairs_c staticlib: rules\n' more; cat more >>tree/crates.txt
touch tree/rust/Cargo.{toml,lock}
built() { env -u CARGO_TARGET_DIR PATH="$folder/tools" tree/nekahuiro "$@"; }
mv tools/uname uname; printf '#!/bin/bash\necho Linux aarch64\n' >tools/uname; chmod +x tools/uname
fails "another machine" 1 "the library is for Linux on x86-64, and this is Linux aarch64" built
mv uname tools/uname
fails "nothing is built, and no prover" 1 "there is no rt to build it" built
# It proves what no call has proved yet, says which crate it is at, and makes an archive in the crate's folder.
cat >rt <<'RT'
#!/bin/bash
here=$(basename "$PWD")
echo "$here: $*" >>../../../asked
case $here in nekahuiro_c) own="laws rules nekahuiro" ;; nekahuiro_edition2_c) own=nekahuiro_edition2 ;; *) own='' ;; esac
for name in $own $here; do
    echo "rt: chose --jobs 2 for $name"; sleep ${pause:-0}; echo "fn $name::f: ${verdict:-proved}"
    [ -z "${verdict:-}" ] || exit 1
done
mkdir -p out; touch out/lib$here.a
RT
cat >cargo <<'CARGO'
#!/bin/bash
mkdir -p tree/rust/target/release; printf '#!/bin/bash\necho "played $*"\n' >tree/rust/target/release/nekahuiro-cli
chmod +x tree/rust/target/release/nekahuiro-cli
CARGO
chmod +x rt cargo; mv rt tools/
fails "proved, and no cargo" 1 "there is no cargo to build it" built
holds "it says that it proves" grep -q "it is proved and built, which takes some minutes" err
holds "it says what it proves, each once" test "$(grep -o '[0-9]* of 7: [a-z_0-9]*' err | tr '\n' ',')" = "1 of 7: laws,2 of 7: rules,3 of 7: nekahuiro,4 of 7: nekahuiro_c,5 of 7: nekahuiro_edition2,6 of 7: nekahuiro_edition2_c,7 of 7: nekahuiro_pairs_c,"
holds "with the time so far" grep -q "proving 1 of 7: laws (0 min [0-9][0-9] s so far)" err
holds "and at the end all" grep -q "7 of 7 proved (0 min [0-9][0-9] s)" err
holds "each library is proved once, as it is built" test "$(tr '\n' ',' <asked)" = "nekahuiro_c: lib --cpu=x86-64,nekahuiro_edition2_c: lib --cpu=x86-64,nekahuiro_pairs_c: lib --cpu=x86-64,"
holds "the prover's text is in a log" grep -q "fn rules::f: proved" tree/target/nekahuiro.log
holds "and not on the terminal" bash -c "! grep -q 'fn rules' err"
mv cargo tools/
ok "it builds what is missing" "^played show x$" built show x
holds "it proves nothing twice" bash -c "! grep -q proved err"
mv tools/cargo tools/rt .
ok "what is built needs no tools" "^played show x$" built show x
holds "and says nothing" test ! -s err
sleep 0.01; mkdir -p tree/crates/nekahuiro_c/out/rlib tree/crates/laws/out; touch tree/crates/laws/out/new
ok "what rt itself wrote is no newer crate" "^played show x$" built show x
rm tree/target/staticlib/libnekahuiro_edition2.a
fails "one library is missing, and no prover" 1 "the proved library isn't built, or is older than its crates, and there is no rt" built
touch tree/target/staticlib/libnekahuiro_edition2.a; sleep 0.01; touch tree/crates/laws/src/new
fails "a crate is newer, and no prover" 1 "older than its crates, and there is no rt" built
mv rt tools/
fails "a crate that isn't proved" 1 "the library isn't proved" env verdict="not proved" PATH="$folder/tools" tree/nekahuiro
holds "a crate that isn't proved: which" grep -q "fn laws::f: not proved" err
holds "a crate that isn't proved: where it is told" grep -q "target/nekahuiro.log says why" err
holds "it isn't told as proved" bash -c "! grep -q '7 of 7' err"
# On a terminal it tells what it is at, on one line that is written over.
if command -v script >/dev/null; then
    text '#!/bin/bash\nexport PATH=%s/tools pause=1.2\nunset CARGO_TARGET_DIR\n%s/tree/nekahuiro\n' ask.terminal
    printf "$(cat ask.terminal)\n" "$folder" "$folder" >terminal; touch tree/crates/laws/src/newer
    ok "what is being proved, on a terminal" "proving 2 of 7: rules \(0 min [0-9][0-9] s so far\)" bash -c "script -qec 'bash terminal' /dev/null </dev/null | tr '\r' '\n'"
    holds "the libraries themselves at last" grep -q "proving 7 of 7: nekahuiro_pairs_c (0 min [0-9][0-9] s so far)" out
    holds "and at the end all" grep -q "7 of 7 proved (0 min [0-9][0-9] s)" out
fi
