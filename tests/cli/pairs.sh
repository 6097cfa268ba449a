# Pages that can tear: a store file of 2,178 bytes has every page as two copies.
ok "a fresh store of pairs" "^torn: a fresh store of 2178 bytes$" "$run" fresh torn --pairs
fails "pairs of edition 2" 2 "pages that can tear are those of edition 1, and --edition 2 was given" "$run" fresh none3 --pairs --edition 2
holds "which makes no file" test ! -e none3
ok "its copies" "^every page is two good copies that are alike$" "$run" show torn
cp torn torn.fresh
text 'recover\nbegin none\nlock 0 3\nwrite 0 3 3 05\n' begun3
text 'commit 0 1 second-bad\n' cut3; cat begun3 cut3 >list3
ok "a commit that is torn at its commit page" "^50000102 0B02$" "$run" play torn list3
holds "what came of it" grep -qx "5 events: 4 done, 0 refused, 1 cut by a crash; 1 transaction: 1 survives, 0 lost" out
holds "page 0" grep -qx "page 0 (15 10 00 08 ..): committed, record 3; a recover will copy its intention page home" out
holds "and what is torn" grep -qx "1 page has a copy that a recover will mend" out
cp torn torn.cut
ok "show" "^     3  intention page 4     00000005 " "$run" show torn
holds "the first copy" grep -qE "^  first  good +15100008 " out
holds "the second copy" grep -qE "^  second bad +10000000 " out
ok "get reads through the pairs" "^000000050{56}$" "$run" get torn 3
ok "an age too" "^live 2$" "$run" age torn 3 7 10
ok "check" "^a recover mends 1 page first:$" "$run" check torn
holds "which copy" grep -qx "  page 0, the commit page: its second copy from its first" out
holds "and then" grep -qx "then it makes 2 page writes:" out
holds "what it copies" grep -qx "  home page 20 from intention page 4: record 3, offset 3: 00 becomes 05" out
same "nothing of this changes the store" torn torn.cut

# Every way to tear: whether the commit survives, and what is left.
for row in "1:first-bad:1:0:bad:good" "1:second-bad:2:1:good:bad" "1:second-old:2:1:good:good" "0:second-old:1:0:good:good"; do
    IFS=: read -r count way made survives first second <<<"$row"
    cp torn.fresh way3
    (cat begun3; echo "commit 0 $count $way") | "$run" play way3 - --trace >out 2>err
    holds "commit 0 $count $way: page writes" grep -q "commit 0 $count $way: cut by a crash after $made page write.*; the .* torn, its .* left" out
    holds "commit 0 $count $way: survives $survives" grep -q "1 transaction: $survives survive" out
    ok "commit 0 $count $way: the copies" "^  first  $first +" "$run" show way3
    holds "commit 0 $count $way: the second copy" grep -qE "^  second $second +" out
    ok "commit 0 $count $way: recovers" "^recover 63: the store is up" bash -c "echo recover | '$run' play way3 - --trace | sed -n 's/^ *1  [0-9A-F]*  [0-9A-F]*    //p'"
    ok "commit 0 $count $way: mended" "^every page is two good copies that are alike$" "$run" show way3
    ok "commit 0 $count $way: the record" "^0000000$((5 * survives))0{56}$" "$run" get way3 3
done

# Words and event words.
ok "encode" "^50000102$" "$run" encode --pairs commit 0 1 second-bad
ok "and back" "^recover 0 second-old$" "$run" encode --pairs 80000003
ok "a way that there isn't" "^80003F04  # bad, answered 1: recover with value 4: there are 0, and 1 to 3 for a torn page write$" "$run" encode --pairs 80003F04
fails "a way in words that there isn't" 4 ".half-bad. is no way in which a page write is torn" "$run" encode --pairs commit 0 1 half-bad
holds "and how to write it" grep -qF 'commit TRANSACTION [COUNT [first-bad | second-bad | second-old]]' err
fails "a way in edition 1" 4 ".second-bad. is one word too many" "$run" encode commit 0 1 second-bad
ok "a torn word in edition 1" "^50000102  # bad, answered 1: " "$run" encode 50000102
text 'recover\nquery 7\n' bad3; cp torn before3
fails "an event that there isn't" 4 "bad3, line 2: .query. is no event" "$run" play torn bad3
printf '\x90\0\x3F\x07' >raw3
ok "and its word" "^refused 1: bad event" "$run" play torn raw3 --raw --dry
same "no store was changed" torn before3

# Plan: copy by copy, with what mends the store.
ok "plan" "^ +mend  page  0  second  15100008 .* commit page, committed: 3$" "$run" plan torn list3
holds "copies in their order" test "$(awk '$2 == "page" { printf "%s%s ", $3, substr($4, 1, 1) }' out)" = "0s 20f 20s 0f 0s 4f 4s 0f 0s 20f 20s 0f 0s "
holds "the torn one" grep -qE "^ +3  page  0  second  15100008 .* \(left bad\)$" out
holds "what isn't made" grep -qE "^ +4  page 20  first   00000005 .* \(not made\)$" out
holds "the sum" grep -qx "5 events: 12 copy writes, 5 not made, 1 page mended" out
same "nothing is played" torn before3

# Portions and state files.
cp torn.fresh whole3; cp torn.fresh parts3
ok "the whole list" "5 events" "$run" play whole3 list3 --answers whole3.bin
ok "in portions" "5 events" "$run" play parts3 list3 --portions 2 --answers parts3.bin
same "in portions: the answers" whole3.bin parts3.bin
same "in portions: the store" whole3 parts3
cp torn.fresh kept3
ok "a first part" "^kept3.state: up, live: 0$" "$run" play kept3 begun3 --state kept3.state
ok "show --state" "^  its record  3  00000005 " "$run" show kept3 --state kept3.state
ok "plan --state" "5 not made$" "$run" plan kept3 cut3 --state kept3.state
ok "waiting on such a state" "^no ring" bash -c "echo 'lock 0 3' | '$run' waiting kept3.state -"
ok "put beside it" "^kept3: record 5 is 07" "$run" put kept3 5 07 --state kept3.state
ok "the shell goes on from it" "^the byte is 05$" "$run" shell kept3 --state kept3.state <<<'read 0 3 3'
ok "the second part" "1 survives, 0 lost$" "$run" play kept3 cut3 --state kept3.state
ok "a sheet" "^[0-9A-F]{8} 0004$" bash -c "printf '{L3W302A5}' | '$run' play kept3 - --sheet"
ok "get finds it" "^0000A5050{56}$" "$run" get kept3 3
ok "put" "^kept3: record 0 is 0102" "$run" put kept3 0 0102
ok "the shell" "^cut by a crash after 1 page write; the next is torn, its first copy left bad$" "$run" shell kept3 < <(printf 'recover\nbegin none as top\nlock top 1\nwrite top 1 0 11\ncommit top 1 first-bad\n')
ok "serial" "^commit 0 63 +# event 5: commit 0 1 second-bad$" "$run" serial torn.fresh list3

# A state that goes with a store whose copies were changed isn't taken.
cp torn.fresh spoiled3; "$run" play spoiled3 begun3 --state spoiled3.state >/dev/null
printf '\0' | dd of=spoiled3 bs=1 seek=$((66 * 20)) conv=notrunc 2>/dev/null; cp spoiled3 before3
fails "a store that was changed" 4 "spoiled3 isn't the store that was left with spoiled3.state" "$run" play spoiled3 cut3 --state spoiled3.state
same "it stays" spoiled3 before3

# Damage: a page without a good copy, anywhere.
printf '\0' | dd of=spoiled3 bs=1 seek=$((66 * 20 + 33)) conv=notrunc 2>/dev/null
printf '\0' | dd of=spoiled3 bs=1 seek=$((66 * 5)) conv=notrunc 2>/dev/null; cp spoiled3 before3
ok "show of a page without a good copy" "^page 20 has no good copy: recover and age are refused with 4, and nothing is mended$" "$run" show spoiled3
fails "check" 4 "spoiled3: refused 4: page 20, the home page of record 3, has no good copy; a recover is refused" "$run" check spoiled3
fails "an age of another record" 4 "spoiled3: refused 4: page 0 is damaged, or a page has no good copy" "$run" age spoiled3 0 1 1
fails "get" 4 "refused 4: page 20, the home page of record 3, has no good copy" "$run" get spoiled3 0
fails "put" 4 "recover 63: refused 4: page 0 is damaged, or a page has no good copy" "$run" put spoiled3 0 01
ok "a recover" "^80003F00 0400$" "$run" play spoiled3 begun3
ok "serial over it" "^recover 63 +# refused: page 20 has no good copy$" "$run" serial spoiled3 begun3
same "nothing is mended" spoiled3 before3
ok "show --diff" "^page 20, the home page of record 3$" "$run" show torn.fresh --diff spoiled3
holds "by copies" grep -qE "^  spoiled3    second bad " out
fails "show --diff of two forms" 4 "torn is a store of edition 1 on pages that can tear, and first1 one of edition 1" "$run" show torn --diff first1

# What only edition 1 on whole pages has.
cp torn before3
fails "audit" 4 "torn is a store of edition 1 on pages that can tear, and the auditor is for edition 1" "$run" audit torn list3 whole3.bin torn
holds "what to do instead" grep -q "play EVENTS on a copy of START with .--expect ANSWERS." err
text 'recover\nbegin none\nlock 0 3\nwrite 0 3 0 01\nprepare 0 7\n' prepare3
fails "prepare" 4 "prepare3, line 5: .prepare. is no event" "$run" play torn prepare3
same "no store was changed" torn before3
fails "a store of another length" 4 "a store has exactly 1056 bytes, 2178 where pages can tear" bash -c "head -c 2177 torn >short3; '$run' show short3"

# The page shows both copies.
cp torn.fresh paged3
ok "a page" "^torn.html: the run to look at, in a browser$" "$run" play paged3 list3 --page torn.html --picture torn.svg
same "which plays the same" paged3 torn.cut
holds "its script knows the copies" grep -q "TEARS = true, PAGES = 33, RECORDS = 16;" torn.html
holds "and of a store whose pages don't tear" grep -q "TEARS = false, PAGES = 33, RECORDS = 16;" run.html
if [ -n "$browser" ]; then
    drive torn.html 0,4,5
    holds "in a browser: without errors" bash -c "grep -qx 'END.*' driven && ! grep -q ^error driven"
    # Without the statuses, which are told in words.
    copies() { hex_of "$1" | fold -w 66 | cut -c3- | tr -d '\n'; }
    holds "both copies" grep -qx "store 5 $(copies torn.cut)" driven
    holds "and before" grep -qx "store 0 $(copies torn.fresh)" driven
fi
no_leftovers .
