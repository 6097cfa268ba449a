# Words instead of numbers: counts left out, names of transactions, refusals in words.
"$run" fresh named --force >/dev/null
ok "a commit without a count is whole" "^50003F00$" "$run" encode commit 0
ok "a recover without a count is whole" "^80003F00$" "$run" encode recover
ok "a prepare without a count" "^90003F07$" "$run" encode prepare 0 7
ok "a decision without a count" "^A0007F07$" "$run" encode decide commit 7
text 'recover\nbegin none as refresh\nbegin none as other\nbegin refresh as child\nlock child 3\nwrite child 3 0 A5\nlock other 3\ncommit child\ncommit refresh\n' named.txt
text 'recover 63\nbegin none\nbegin none\nbegin 0\nlock 2 3\nwrite 2 3 0 A5\nlock 1 3\ncommit 2 63\ncommit 0 63\n' numbered.txt
ok "a list with names" "9 events: 8 done, 1 refused" "$run" play named named.txt --answers named.bin
holds "a refusal in words" grep -qx "refused 8: the lock can't be granted now: event 7" out
"$run" fresh numbered >/dev/null; "$run" play numbered numbered.txt --answers numbered.bin >/dev/null
same "names stand for the numbers of the answers" named.bin numbered.bin
same "and the store is the same" named numbered
"$run" fresh named --force >/dev/null
ok "names in a trace" "begin none: transaction 0 begins, called refresh$" "$run" play named named.txt --trace --dry
holds "a name where it is used" grep -q "write 2 3 0 A5 (child): done" out
# An old name never means a number that is given again, nor one whose begin was refused.
text 'recover\nbegin none as one\ncommit one\nbegin none as two\nlock one 3\nlock two 3\n' again.txt
ok "a name of who has ended" "lock 30 3 \(one\): refused 5" "$run" play named again.txt --trace --dry
holds "and the number is another's" grep -q "lock 0 3 (two): done" out
text 'recover\nbegin none as one\ncrash\nrecover\nbegin none as two\nabort one\nbegin one as three\nlock three 1\ncommit two\nbegin none as one\nlock one 4\n' crashed.txt
ok "a name of who crashed" "abort 30 \(one\): refused 5" "$run" play named crashed.txt --trace --dry
holds "none begins under who crashed" grep -q "begin 30 (one): refused 5" out
holds "a name whose begin was refused" grep -q "lock 30 1 (three): refused 5" out
holds "a name that is given again" grep -q "lock 0 4 (one): done" out
ok "names one event at a time" "9 events: 8 done" "$run" play named named.txt --portions 1 --dry
fails "a name that nobody has" 4 "line 2: no transaction is called .refresh. before this line" bash -c "printf 'recover\nlock refresh 3\n' | '$run' play named -"
holds "a name that nobody has: the mend" grep -qF 'name it where it begins: `begin none as refresh`' err
fails "a name that can't be" 4 ".none. can't be a name" bash -c "echo begin none as none | '$run' play named -"
fails "a name with a sign" 4 ".a.b. can't be a name" bash -c "echo begin none as a.b | '$run' play named -"
fails "a name without a place" 4 "one word too many" bash -c "echo crash as x | '$run' play named -"
fails "names to words" 4 "the number of a name is known from the answers only" bash -c "'$run' encode <named.txt"
fails "names to raw words" 4 "event 2: the number of a name is known from the answers only" bash -c "'$run' encode --raw <named.txt"
"$run" play named named.txt --answers due.names --dry >/dev/null
{ head -c 12 due.names; printf '\0\0'; tail -c 4 due.names; } >other.names
fails "other answers" 6 "event 7, lock 1 3: the answer is 0800, and other.names has 0000" "$run" play named named.txt --expect other.names --dry
holds "other answers, in words" grep -q "refused 8: the lock can't be granted now and not done, 0" err
