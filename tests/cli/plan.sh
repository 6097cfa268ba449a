# The page writes of each event, told before it is played.
ok "a fresh store to plan on" "1056 bytes" "$run" fresh planned
text 'recover 63\nbegin none\nbegin 0\nlock 1 3\nwrite 1 3 2 A5\ncommit 1 63\nlock 0 12\nwrite 0 12 0 01\ncommit 0 3\n' plan.txt
text 'recover 63\nbegin none\nlock 0 3\nwrite 0 3 0 FF\nprepare 0 63 7\ndecide commit 63 7\ncommit 4 63\n70000001\n' plan2.txt
cp planned before
ok "a plan" "commit 0 3: cut by a crash after 3 page writes" bash -c "cat plan.txt plan2.txt | '$run' plan planned -"
same "a plan leaves the store" planned before
holds "a child writes no page" grep -q "commit 1 63: done, 0 page writes" out
order=$(awk '$2 == "page" { printf "%s ", $3 }' out)
holds "the pages in their order" [ "$order" = "4 13 0 20 29 0 20 29 0 4 0 0 20 0 " ]
holds "an intention page" grep -q "0  page  4  0000A500 .* intention page of record 3$" out
holds "the commit page" grep -q "2  page  0  15100810 .* commit page, committed: 3, 12$" out
holds "what a cut leaves out" grep -q "3  page 20  0000A500 .* home page of record 3 (not made)$" out
holds "the prepared page" grep -q "1  page  0  13100008 07.* commit page, prepared 7: 3$" out
holds "the empty page" grep -q "2  page  0  10000000 .* commit page, empty$" out
holds "a refused event" grep -q "commit 4 63: refused 5" out
holds "a bad event" grep -q "70000001: refused 1" out
holds "the sum" grep -q "^17 events: 14 page writes, 3 not made$" out
"$run" play planned plan.txt --state planned.state >out 2>err
ok "a plan from a state file" "0  page 20  0000A500" "$run" plan planned plan2.txt --state planned.state
holds "goes on where the play stopped" grep -q "recover 63: the store is up, 3 page writes" out
bash -c "'$run' encode --raw <plan2.txt >plan2.bin"
ok "a plan of raw words" "3 page writes" "$run" plan planned plan2.bin --raw
ok "a plan of nothing" "^0 events: 0 page writes$" bash -c "'$run' plan planned - </dev/null"
fails "a plan without a list" 2 "EVENTS is missing" "$run" plan planned
fails "a plan on nothing" 1 "can't read absent" "$run" plan absent plan.txt
fails "a plan with a state of another store" 4 "goes with the store" "$run" plan store plan.txt --state planned.state
ok "help of plan" "the page writes of each event" "$run" help plan
