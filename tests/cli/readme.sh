# What README shows for the shell is run as it stands there.
mkdir readme; ln -s "$run" readme/nekahuiro; ln -s "$root/docs" readme/docs
awk '/^```sh$/ { block++; inside = 1; next } /^```$/ { inside = 0 } inside { print >("block." block) }' "$root/README.md"
block_with() { grep -l -- "$1" block.* | head -1; }
in_readme() { cp "$1" readme/block; (cd readme && bash -e block); }
ok "README: a list of your own" "^10 events: 9 done, 0 refused, 1 cut by a crash; 2 transactions: 1 survives, 1 lost$" in_readme "$(block_with 'list.html')"
holds "README: its page" grep -q "commit 0 1 (refresh)" readme/list.html
holds "README: how the write was lost" grep -q "the commit of transaction 0 was cut at event 9 after 1 page write, before the commit page was written" readme/list.html
ok "README: from the shell" "^live 2$" in_readme "$(block_with 'age store.bin')"
holds "README: what put left" grep -qx "00000003$(printf '00%.0s' {1..28})" out
ok "README: sixty-four records" "^live 2$" in_readme "$(block_with 'large.bin')"
ok "README: pages that can tear" "^live 2$" in_readme "$(block_with 'pairs.bin')"
ok "README: events one by one" "^state.bin: up, nothing is live$" in_readme "$(block_with 'state.bin')"
for word in '63, more than are ever due' 'puts A5 at offset 2 of record 3' 'x86-64' 'Rust 1.89' 'twenty minutes' 'fifty minutes'; do
    holds "README says: $word" grep -qF -- "$word" "$root/README.md"
done
ok "the help says what 63 is" "Left out it is 63, more than are ever due" "$run" help
holds "the help says what an offset and a value are" grep -q "OFFSET is its place in the record, 0 to 31; VALUE is two" out
