# The auditor: what belongs together, the first wrong event, the first wrong page, and what it refuses.
"$run" fresh audited.bin >/dev/null && cp audited.bin after.bin
text 'recover 63\nbegin none\nlock 0 3\nwrite 0 3 2 A5\ncommit 0 63\n' audited.txt
"$run" play after.bin audited.txt --answers audited.answers >/dev/null
cp audited.bin before.copy && cp after.bin after.copy
ok "they belong together" "^they belong together$" "$run" audit audited.bin audited.txt audited.answers after.bin
text 'more' more.answers && cat audited.answers more.answers >long.answers
ok "answers past the last event don't count" "^they belong together$" "$run" audit audited.bin audited.txt long.answers after.bin
text '\0\0\0\0\0\0\0\0\0\3' wrong.answers
fails "the first wrong event" 6 "event 4 \(from 0\), commit 0 63: its answer is 0003, and it should be 0004: done" \
    "$run" audit audited.bin audited.txt wrong.answers after.bin
fails "the first wrong page" 6 "page 4 of the store after it, the intention page of record 3, is wrong" \
    "$run" audit audited.bin audited.txt audited.answers audited.bin
head -c 640 after.bin >page.bin && text '\1' one.bin && cat one.bin >>page.bin && tail -c 415 after.bin >>page.bin
fails "a wrong home page" 6 "page 20 of the store after it, the home page of record 3, is wrong" \
    "$run" audit audited.bin audited.txt audited.answers page.bin
fails "too few answers" 4 "refused 21" "$run" audit audited.bin audited.txt one.bin after.bin
text 'query 7\n' query.txt
fails "a query isn't audited" 4 "refused 30" "$run" audit audited.bin query.txt audited.answers after.bin
fails "a store of another length" 4 "is no store" "$run" audit one.bin audited.txt audited.answers after.bin
fails "no end store" 2 "END is missing" "$run" audit audited.bin audited.txt audited.answers
same "an audit leaves the store before alone" audited.bin before.copy
same "an audit leaves the store after alone" after.bin after.copy
