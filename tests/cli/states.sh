# Portions and state files: as one run over the joined lists.
number() { awk -v name="NEKAHUIRO_$1" '$2 == name { print $3 }' "$root/include/nekahuiro.h"; }
state_bytes=$(number STATE_BYTES)
head_bytes=34 # of a state file: a line, then two digests
least_bytes=$((head_bytes + state_bytes + $(number WORK_BYTES))) # all but where the store is
digest() { # FILE: 8 raw bytes, FNV-1a with the least byte first
    local value=$((0xCBF29CE484222325)) number
    for number in $(od -An -v -tu1 "$1"); do value=$(((value ^ number) * 0x100000001B3)); done
    for number in 0 8 16 24 32 40 48 56; do printf "\\x$(printf %02x $((value >> number & 255)))"; done
}
state_file() { # STORE CONTENT FILE: what a state file of this store and content should be
    { echo "nekahuiro state 3"; digest "$1"; digest "$2"; cat "$2"; } >"$3"
}
"$run" fresh whole >out && "$run" fresh cut >out && cp cut cut.first
ok "the whole list" "11 events: 10 done, 0 refused, 1 cut" "$run" play whole hex.txt --answers whole.bin
ok "in portions" "11 events: 10 done, 0 refused, 1 cut" "$run" play cut hex.txt --portions 2 --answers cut.bin
same "in portions: the answers" whole.bin cut.bin
same "in portions: the store" whole cut
cp cut.first cut
ok "a first part" "6 events: 6 done.* 2 transactions: 0 survive, 0 lost, 2 undecided" \
    bash -c "head -4 hex.txt | '$run' play cut - --state kept --answers one.bin"
holds "what is live is said" grep -qx "kept: up, live: 0" out
holds "a state file has state and working buffer" test "$(stat -c %s kept)" = $((least_bytes + 3))
holds "and where the store is" test "$(tail -c 3 kept)" = cut
tail -c +$((head_bytes + 1)) kept >content; state_file cut content due.kept
same "a state file says what it goes with" kept due.kept
cp kept kept.first
ok "a dry run from a state" "kept: down" "$run" play cut rest.txt --state kept --dry
same "a dry run leaves the state" kept kept.first
ok "a trace from a state" "before: the store is up, live: 0; record 3 retained by 0" \
    "$run" play cut rest.txt --state kept --dry --trace
ok "a picture from a state" "transaction 0, begun before, its commit was cut at event 5: survives" \
    bash -c "'$run' play cut rest.txt --state kept --dry --picture late.svg && cat late.svg"
ok "readers are kept" "kept.readers: up, live: 0, 1" \
    bash -c "cp cut.first read && '$run' play read readers.txt --state kept.readers"
ok "a trace from readers" "live: 0, 1; record 3 held to read by 0, 1" \
    "$run" play read raised.txt --state kept.readers --dry --trace
ok "the second part" "2 transactions: 1 survives, 1 lost$" "$run" play cut rest.txt --state kept --answers two.bin
ok "one event at a time" "one/kept: up, live: 0" bash -c "mkdir one && cp cut.first one/cut && head -4 hex.txt | '$run' play one/cut - --state one/kept --portions 1"
same "one event at a time: the state" one/kept kept.first
cat one.bin two.bin >joined.bin
same "in two parts: the answers" whole.bin joined.bin
same "in two parts: the store" whole cut
ok "more events than a run takes" "^5000 events: 5000 done" \
    bash -c "yes crash | head -5000 | '$run' play cut - --portions 4096 --answers long.bin"
same "more events leave the store" whole cut
ok "an empty list on a state" "^0 events" bash -c "'$run' play cut - --state kept </dev/null"
cp cut cut.before; cp kept kept.before; cp kept.first odd
printf '\x01' | dd of=odd bs=1 seek=$((head_bytes + state_bytes - 1)) conv=notrunc 2>err
fails "a damaged state file" 4 "odd is damaged" "$run" play cut.first words.txt --state odd
tail -c +$((head_bytes + 1)) odd >content; state_file cut content odd
fails "a state that isn't sound" 4 "the state in odd is refused .25.: it isn't sound" "$run" play cut words.txt --state odd
holds "a state that isn't sound: the mend" grep -q 'remove odd and begin with a recover; no file was changed' err
fails "a state of a store before" 4 "cut isn't the store that was left with kept.first" "$run" play cut words.txt --state kept.first
fails "a state of another store" 4 "kept.first goes with the store .cut. of its folder, and store is another one" "$run" play store rest.txt --state kept.first
head -c $((least_bytes + 3)) /dev/zero >zeros
fails "zeros for a state file" 4 "zeros is no state file: it doesn't begin" "$run" play cut words.txt --state zeros
{ echo "nekahuiro state"; head -c 8548 /dev/zero; } >old.kept; head -c 8532 /dev/zero >oldest.kept
{ echo "nekahuiro state 2"; head -c 8676 /dev/zero; } >older.kept
for old in old older oldest; do
    fails "an $old state file" 4 "$old.kept is a state file of another version" "$run" play cut words.txt --state $old.kept
done
head -c "$least_bytes" kept >short.kept
fails "a short state file" 4 "no state file: it has $least_bytes bytes, and a state file has more than $least_bytes" \
    "$run" play cut words.txt --state short.kept
fails "a folder for a state" 1 "is a folder, and a state file is a file" "$run" play cut words.txt --state .
fails "a state in a missing folder" 1 "can't write missing/kept" "$run" play cut words.txt --state missing/kept
fails "the store for a state" 2 "cut is named twice" "$run" play cut words.txt --state cut
fails "too many events on a state" 4 "4097 events.*refusal 20" bash -c "yes crash | head -4097 | '$run' play cut - --state kept"
fails "portions of nothing" 2 "from 1 to 4096, and .0. was given" "$run" play cut words.txt --portions 0
fails "portions too long" 2 "from 1 to 4096" "$run" play cut words.txt --portions 4097
fails "portions without a number" 2 "--portions needs N, and nothing was given" "$run" play cut words.txt --portions
chmod 444 kept
fails "read-only state" 1 "kept: it is read-only" "$run" play cut words.txt --state kept
chmod 644 kept
fails "no room for the state" 1 "can't write kept: File too large" \
    bash -c "trap '' XFSZ; ulimit -f 3; '$binary' play cut words.txt --state kept"
same "all refused: the store stays" cut cut.before
same "all refused: the state stays" kept kept.before
no_leftovers .
