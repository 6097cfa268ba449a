# Edition 2: a store file says its edition by its length.
ok "a fresh store of edition 2" "^two: a fresh store of 4128 bytes$" "$run" fresh two --edition 2
ok "and one of edition 1" "^first1: a fresh store of 1056 bytes$" "$run" fresh --edition=1 first1
fails "another edition" 2 "there is no edition .3." "$run" fresh three --edition 3
holds "which makes no file" test ! -e three
text 'recover\nbegin none\nlock 0 63 # the last record\nwrite 0 63 3 05\ncommit 0 2\n' list2
ok "a list with record 63, cut behind its commit page" "^5000002000000000 0B02$" "$run" play two list2
holds "what came of it" grep -qx "5 events: 4 done, 0 refused, 1 cut by a crash; 1 transaction: 1 survives, 0 lost" out
holds "page 0" grep -qx "page 0 (25 00 00 00 00 00 00 00 01 02 ..): committed, record 63; a recover will copy its intention page home" out
ok "show" "^    63  intention page 64    00000005 " "$run" show two
holds "other records are at home" grep -qE "^     0  home page 65 " out
ok "an age" "^live 2$" "$run" age two 63 7 10
fails "an age of record 64" 4 "there is no record 64 \(refused 23: records are numbered from 0 to 63\)" "$run" age two 64 7 10
cp two before2
text '80000FF000000000 1F80000000000000\n80000FF000000001\n' hex2
ok "words of 16 hex digits, in a dry run" "^80000FF000000001 0100$" "$run" play two hex2 --dry
same "the store is as it was" two before2
fails "strict" 5 "1 event was refused; the first is event 3, 80000FF000000001: refused 1: " "$run" play two hex2 --strict
ok "a recover wrote the record home" "^    63  home page 128        00000005 " "$run" show two
ok "the answers go to a file" "^3 events: 2 done, 1 refused" "$run" play two hex2 --answers answers2
holds "two bytes each" test "$(od -An -tx1 answers2 | tr -d ' \n')" = 000000000100
ok "and are expected" "^3 events" "$run" play two hex2 --expect answers2
printf '\000\000\000\001\001\000' >other2
fails "others" 6 "event 2, begin none: the answer is 0000, and other2 has 0001" "$run" play two hex2 --expect other2
printf '\x80\0\x0F\xF0\0\0\0\0' >raw2
ok "raw words of 8 bytes" "^80000FF000000000 0000$" "$run" play two raw2 --raw
printf '\x80\0\x0F\xF0' >half2
fails "half a word" 4 "half2 has 4 raw bytes, which is no whole number of 8-byte event words \(refusal 20\)" "$run" play two half2 --raw
cp two before2
text 'recover\nlock 0 64\n' bad2
fails "a record that there isn't" 4 "bad2, line 2: the record .64. isn't a number from 0 to 63" "$run" play two bad2
text 'recover\nquery 7\n' bad2
fails "an event that there isn't" 4 "bad2, line 2: .query. is no event" "$run" play two bad2
text '80003F00\n' bad2
fails "a word of edition 1" 4 "bad2, line 1: .80003F00. isn't an event word of edition 2" "$run" play two bad2
text 'recover # 80000FF000000000\n80000FF000000000 12\n' bad2
fails "half of a hex word" 4 "bad2, line 2: .12. isn't an event word of edition 2" "$run" play two bad2
text '80000FF000000000\n' bad2
fails "a word of edition 2 for a store of edition 1" 4 "bad2, line 1: .80000FF000000000. isn't an event word, but one of edition 2" "$run" play first1 bad2
yes 'crash' | head -4097 >long2
fails "too many events" 4 "long2: 4097 events, but a run takes at most 4096" "$run" play two long2
holds "and what to do" grep -q "cut the list where nothing is live" err
same "no store was changed" two before2

# Names, trace, picture and page.
text 'recover\nbegin none as top\nbegin top as child\nlock child 40\nwrite child 40 0 AA\ncommit child\nlock top 63\nwrite top 63 1 BB\ncommit top 3\nrecover\nbegin none as other\nread-lock other 40\nread other 40 0\nabort other\nlock child 1\n' named2
"$run" fresh told2 --edition 2 >/dev/null; cp told2 fresh2
ok "a trace with names" "^   13  4050000000000000  00AA    read 0 40 0 \(other\): the byte is AA$" "$run" play told2 named2 --trace --picture two.svg
holds "who holds and retains" grep -qE "^ {35}record 40 retained by 0; record 63 held by 0$" out
holds "a cut commit that survives" grep -qE "^ {35}the store is down; transaction 0 survives: the commit page was written$" out
holds "a name that stands for nobody" grep -q "lock 30 1 (child): refused 5: the named transaction isn't live" out
holds "what came of it" grep -q "^15 events: 13 done, 1 refused, 1 cut by a crash; 3 transactions: 2 survive, 1 lost$" out
holds "a row for each record that was locked" test "$(grep -oE '>record [0-9]+<' two.svg | tr -d '\n')" = ">record 40<>record 63<"
cp fresh2 paged2
ok "a page" "^two.html: the run to look at, in a browser$" "$run" play paged2 named2 --page two.html
same "which plays the same" paged2 told2
holds "its script knows the edition" grep -q "PAGES = 129, RECORDS = 64;" two.html
holds "what a live transaction has written" grep -qE '"versions":\[\[63,0,"00BB0+"\]\]' two.html
holds "what a child hands up" grep -qE '"versions":\[\[40,1,""\],\[40,0,"AA0+"\]\]' two.html
fails "an event that names nobody, strictly" 5 "1 event was refused; the first is event 15, lock 30 1 \(child\): refused 5" "$run" play fresh2 named2 --strict --dry

# One record: get, put, check.
ok "get" "^00BB0{60}$" "$run" get told2 63
fails "get of record 64" 4 "there is no record 64 \(refused 23: records are numbered from 0 to 63\)" "$run" get told2 64
fails "no number at all" 2 "the record .last. isn't a number" "$run" get told2 last
holds "how far they go" grep -q "give a number from 0 to 63" err
ok "put" "^told2: record 63 is 00BB0000 .* 00000102 " "$run" put told2 63 0102 --at 30
ok "is settled" "^00BB0{56}0102$" "$run" get told2 63
cp told2 put2
fails "put to record 64" 4 "there is no record 64" "$run" put told2 64 01
fails "too many bytes" 2 "3 bytes from offset 30 on don't fit into a record of 32" "$run" put told2 63 010203 --at 30
same "no byte was written" told2 put2
ok "check" "^a recover has nothing to do, and writes no page$" "$run" check told2
"$run" play fresh2 list2 >/dev/null
ok "check of a commit that was cut" "^  home page 128 from intention page 64: record 63, offset 3: 00 becomes 05$" "$run" check fresh2
holds "and how many page writes" grep -qx "a recover makes 2 page writes:" out
ok "get finds it" "^000000050{56}$" "$run" get fresh2 63
ok "put recovers first" "^fresh2: record 0 is 07" "$run" put fresh2 0 07
ok "show --diff" "^page 128, the home page of record 63$" "$run" show told2 --diff fresh2
holds "of so many pages" grep -qE "^[0-9]+ pages of 129 differ$" out
fails "show --diff of two editions" 4 "told2 is a store of edition 2, and first1 one of edition 1" "$run" show told2 --diff first1

# Page writes, one transaction at a time, event words.
"$run" fresh planned2 --edition 2 >/dev/null; cp planned2 still2
text 'recover\nbegin none\nlock 0 63\nwrite 0 63 0 05\nlock 0 2\nwrite 0 2 1 06\ncommit 0 4\nrecover\n' plan2
ok "plan" "^ {33}2  page   0  25200000 00000000 01040000 .* commit page, committed: 2, 63$" "$run" plan planned2 plan2
holds "intention pages come first, rising" test "$(grep -oE 'page +[0-9]+  [0-9A-F]{8}' out | head -2 | tr -s ' ' | tr '\n' ',')" = "page 3 00060000,page 64 05000000,"
holds "then the commit page and home pages" test "$(grep -oE '  page +[0-9]+ ' out | tr -dc '0-9\n' | tr '\n' ' ')" = "3 64 0 67 128 0 67 128 0 "
holds "two of them are cut" grep -qx "8 events: 9 page writes, 2 not made" out
same "nothing is played" planned2 still2
ok "serial" "^commit 0 255 +# event 9: commit 0 3$" "$run" serial planned2 <(sed 's/ as .*//; s/top\|other/0/; s/child/1/' named2)
holds "without what was lost" test "$(grep -c 'begin' out)" = 2
holds "its recover" grep -qx "recover 255" out
cp out serial2; cp planned2 again2
ok "play takes it" "9 events: 9 done" "$run" play again2 serial2
ok "encode" "^207E000000000000$" "$run" encode --edition 2 lock 0 63
ok "and back" "^lock 0 63$" "$run" encode --edition=2 207E000000000000
ok "a bad word" "^207E000000000001  # bad, answered 1: lock with a bit behind its fields that isn't 0$" "$run" encode --edition 2 207E000000000001
ok "a kind that there isn't" "^90000FF000000000  # bad, answered 1: there is no kind 9$" "$run" encode --edition 2 90000FF000000000
fails "a record of edition 2 for edition 1" 4 "the record .63. isn't a number from 0 to 15" "$run" encode lock 0 63
fails "a word of edition 2 without --edition" 4 "isn't an event word, but one of edition 2" "$run" encode 207E000000000000
ok "raw words and back" "^write 0 63 0 05$" bash -c "'$run' encode --edition 2 --raw <plan2 >plan2.raw && '$run' encode --edition 2 --from-raw <plan2.raw"
holds "of eight bytes" test "$(stat -c %s plan2.raw)" = 64

# The shell: each event is in the store when it is answered.
"$run" fresh typed2 --edition 2 >/dev/null
text 'recover\nbegin none as top\nlock top 63\nwrite top 63 0 05\nbegin none\nlock 1 63\nread top 63 0\ncommit top\nread 1 63 0\nlock 1 63\nread 1 63 0\nlocks\n' typed
ok "the shell" "^the byte is 05$" "$run" shell typed2 <typed
holds "refuses a lock that is held" grep -q "^refused 8: the lock can't be granted now$" out
holds "commits" grep -q "^done, 4 page writes$" out
holds "tells who is live" grep -qx "up, live: 1; record 63 held by 1" out
holds "and what isn't kept" grep -qx "what is live at the end isn't kept" out
ok "what was answered is in the store" "^050{62}$" "$run" get typed2 63
cp typed2 before2
fails "a bad line ends it" 4 "standard input: the record .64. isn't a number from 0 to 63" "$run" shell typed2 <<<'lock 0 64'
"$run" shell typed2 >out 2>err < <(printf 'recover\nbegin none\n'; soon grep -q begins out; "$run" put typed2 0 01 >/dev/null; echo 'lock 0 5'); status=$?
[ $status = 3 ] && grep -q "typed2 was changed by another command since the last event" err; report "a store that another command changed" $?
cp before2 typed2
(echo recover; for try in {1..60}; do printf 'begin none\nlock 0 1\nwrite 0 1 0 07\nabort 0\n'; done; printf 'begin none\nlock 0 1\nwrite 0 1 0 07\ncommit 0\n') >many2
ok "many events, of which few are live at a time" "^done, 4 page writes$" "$run" shell typed2 <many2
(printf 'recover\nbegin none\nlock 0 1\n'; yes 'write 0 1 0 08' | head -4093; echo 'read 0 1 0') >full2
ok "as many as are played at once" "^the byte is 08$" "$run" shell typed2 < <(grep -v read full2 | head -4095; tail -1 full2)
fails "one more" 4 "4096 events are live, and no more can be played at once \(refusal 20\)" "$run" shell typed2 <full2
holds "and what to do" grep -q "begin again: what is live is lost, as by a crash; no file was changed" err
ok "nothing of it is in the store" "^070{62}$" "$run" get typed2 1

# A list is read before its store: if the store is of another edition by then, nothing is played.
cp before2 swapped2; mkfifo pipe2
"$binary" play swapped2 pipe2 >out 2>err & player=$!
exec 9>pipe2; "$run" fresh swapped2 --force >/dev/null; cp swapped2 first2; echo recover >&9; exec 9>&-
wait $player; status=$?
[ $status = 3 ] && grep -q "swapped2 was changed by somebody else: it is of another edition now" err; report "a store of another edition by then" $?
same "which stays" swapped2 first2

# Plays at once wait for each other, and a kill leaves the old store or the new one.
"$run" fresh busy2 --edition 2 >/dev/null
for try in 1 2 3 4 5 6 7 8; do "$run" put busy2 "$((try + 50))" "0$try" >/dev/null 2>"err$try" & done; wait
holds "puts at once are all there" test "$(for try in 1 2 3 4 5 6 7 8; do "$run" get busy2 $((try + 50)) | cut -c1-2; done | tr -d '\n')" = 0102030405060708

# What only edition 1 has.
cp told2 before2; printf 'state' >state2
for option in --state=new2 --portions=1 --sheet; do
    fails "play $option" 4 "told2 is a store of edition 2, (which has no state files|which is played as a whole and not in portions|and a job sheet has the records of edition 1 alone)" "$run" play told2 list2 $option
    holds "what to do instead of $option" grep -qE "^  (leave out --state, and play in one list|leave out --portions|write the events as a list)" err
done
holds "no state file was made" test ! -e new2
for command in "put told2 3 01 --state state2" "shell told2 --state state2" "plan told2 list2 --state state2" "show told2 --state state2"; do
    # shellcheck disable=SC2086 # the words of a command
    fails "$command" 4 "told2 is a store of edition 2, which has no state files" "$run" $command
done
text '{L3W302A5}' sheet2
fails "sheet --play" 4 "told2 is a store of edition 2, and a job sheet has the records of edition 1 alone" "$run" sheet sheet2 --play told2
fails "waiting" 4 "told2 is no state file: it is as long as a store of edition 2, which has no state files" "$run" waiting told2 list2
fails "audit" 4 "told2 is a store of edition 2, and the auditor is for edition 1" "$run" audit told2 list2 answers2 told2
holds "what to do instead" grep -q "play EVENTS on a copy of START with .--expect ANSWERS., and compare the copy with END by .show --diff." err
fails "audit of two editions" 4 "told2 is a store of edition 2, and the auditor is for edition 1" "$run" audit first1 list2 answers2 told2
same "no store was changed" told2 before2
holds "no state file either" test "$(cat state2)" = state
no_leftovers .
printf '\x15' | dd of=two bs=1 conv=notrunc 2>/dev/null
fails "an age of a store whose page 0 has edition 1" 4 "two: refused 4: page 0 is damaged" "$run" age two 0 1 1
ok "which is shown" "damaged, its edition isn't 2; recover and age are refused with 4" "$run" show two
