# A list as if one transaction came at a time.
ok "a store to play one at a time" "1056 bytes" "$run" fresh in-turn
cp in-turn in-turn-before
text 'recover 63\nbegin none\nbegin none\nread-lock 0 3\nlock 1 4\nwrite 1 4 0 11\nbegin 0\nlock 2 5\nabort 2\n' turns.txt
text 'read 0 3 0\ncommit 1 3\nrecover 63\nbegin none\ncommit 0 0\nbegin none\nlock 0 4\n' more.txt
cat more.txt >>turns.txt
ok "in the order of commit records" "^commit 0 63 +# event 11: commit 1 3$" "$run" serial in-turn turns.txt
holds "whose turn it is" grep -q "^# the transaction of event 3, stored by event 11$" out
holds "numbers are given anew" grep -q "^lock 0 4 *# event 5: lock 1 4$" out
holds "who was lost in the crash isn't played" bash -c "! grep -qE 'event (2|4|10)\b' out"
holds "that the records are the same" grep -q "^# the settled records are those that the list leaves$" out
same "the store is left as it was" in-turn in-turn-before
cp out again.txt
cp in-turn in-list
ok "the list that comes of it can be played" "7 events: 7 done, 0 refused" "$run" play in-turn again.txt --strict
ok "the list itself" "cut by a crash" "$run" play in-list turns.txt
holds "both leave the same records" diff <("$run" show in-turn | sed 1d) <("$run" show in-list | sed 1d)
"$run" serial in-turn-before again.txt | sed 's/ *#.*//' | grep . >once
sed 's/ *#.*//' again.txt | grep . >twice
same "it is as it is one at a time already" once twice
ok "what was prepared and decided" "^decide commit 63 7 +# event 2: decide commit 1 7$" bash -c \
    "'$run' fresh held >out && printf 'recover 63\nbegin none\nlock 0 3\nwrite 0 3 2 A5\nprepare 0 63 7\n' | '$run' play held - >out \
    && printf 'recover 63\ndecide commit 1 7\n' | '$run' serial held -"
holds "whose decision it is" grep -q "^# prepared before the first event, decided by event 2$" out
ok "raw words" "^begin none +# event 2$" bash -c "'$run' encode --raw <again.txt | '$run' serial in-turn - --raw"
ok "no events" "^recover 63$" "$run" serial in-turn /dev/null
{ printf 'x'; tail -c +2 in-turn; } >broken
ok "a damaged page" "^recover 63 +# refused: page 0 is damaged$" "$run" serial broken turns.txt
fails "a list is missing" 2 "serial: EVENTS is missing" "$run" serial in-turn
fails "a line that is no event" 4 "standard input, line 1: " bash -c "echo lock | '$run' serial in-turn -"
fails "a list that isn't there" 1 "can't read nothing.txt" "$run" serial in-turn nothing.txt
