# The page of a run: one file, and in a real browser it shows the library's own bytes.
"$run" fresh paged --force >/dev/null; cp paged paged.fresh
sed 's/#.*//' "$root/docs/timeline.txt" | grep . >thirty-five.txt
ok "a page" "35 events: 31 done, 2 refused, 2 cut by a crash" "$run" play paged thirty-five.txt --page run.html --dry
holds "where the page is, and no words in hex" bash -c "grep -qx 'run.html: the run to look at, in a browser' out && ! grep -q 80003F00 out"
same "a page of a dry run leaves the store" paged paged.fresh
holds "the page is one file: nothing is fetched" bash -c "! grep -qiE 'https?:|src=|href=|import |fetch\(|XMLHttp' run.html"
holds "and nothing may be" grep -q "content=\"default-src 'none'; style-src 'unsafe-inline'; script-src 'unsafe-inline'\"" run.html
fails "a page that is no HTML" 2 "page makes HTML, and run.svg is the name of something else" "$run" play paged thirty-five.txt --page run.svg
fails "a page over the list" 2 "is named twice" bash -c "cp thirty-five.txt listed.html; '$run' play paged listed.html --page ./listed.html"
fails "a page of too many events" 4 "65537 events, but a page shows at most 65536" bash -c "yes crash | head -65537 | '$run' play paged - --portions 4096 --page long.html"
same "too many events: the store stays" paged paged.fresh
fails "a page that can't be written" 1 "can't write missing/run.html" "$run" play paged change.txt --page missing/run.html
fails "a page to a full device" 7 "can't write /dev/full: No space left" "$run" play paged change.txt --page /dev/full
cp paged.fresh paged
cp thirty-five.txt 'a<script>b'
ok "a name that would be a tag" "<title>a&lt;script&gt;b on paged</title>" bash -c "'$run' play paged 'a<script>b' --page tag.html --dry >/dev/null && cat tag.html"

browser=
for name in chromium chromium-browser google-chrome; do [ -n "$browser" ] || browser=$(command -v $name || true); done
# PAGE EVENTS: what the browser shows when it goes to these events, in the file `driven`
drive() {
    local watch='<script>const troubles = []; for (const kind of ["error", "unhandledrejection", "securitypolicyviolation"]) addEventListener(kind, event => troubles.push(event.message || kind));</script>'
    { awk -v watch="$watch" '{ print } /^<body>$/ { print watch }' "$1"; echo "<script>const wanted = [$2];"; cat "$root/tests/page/driver.js"; echo '</script>'; } >driven.html
    timeout 60 "$browser" --headless --no-sandbox --disable-gpu --disable-dev-shm-usage --window-size=1400,1200 --user-data-dir="$folder/browser" \
        --dump-dom "file://$folder/driven.html" 2>/dev/null | sed -n '/^DRIVEN/,/^END/p' | sed 's/&amp;/\&/g; s/&lt;/</g; s/&gt;/>/g' >driven
    cp driven out; : >err
}
# What the library leaves in the store after so many events of a list, in hex.
library() { # LIST EVENTS
    cp paged.fresh prefix; head -"$2" "$1" | "$binary" play prefix - --answers prefix.answers >/dev/null; hex_of prefix
}
hex_of() { od -An -v -tx1 "$1" | tr -d ' \n' | tr a-f A-F; }
if [ -n "$browser" ]; then
    drive run.html "$(seq -s, 0 35)"
    holds "in a browser: it is drawn to its end, without errors" bash -c "grep -qx 'END.*' driven && ! grep -q ^error driven"
    wrong=0
    for at in $(seq 0 35); do grep -qx "store $at $(library thirty-five.txt "$at")" driven || wrong=$((wrong + 1)); done
    report "the bytes shown are the library's, after each of 35 events" $wrong
    holds "what an event is, in words" grep -qxF "event 8 lock 1 3 | transaction 1 asks for record 3, to read and to write | refused 8: the lock can't be granted now" driven
    holds "a cut commit" grep -q "event 25 .*cut by a crash after 2 page writes / the store is down; transaction 0 survives" driven
    holds "changed bytes are marked" grep -qx "changed 25 4" driven
    holds "locks" grep -qx "locks 16 record 3,3,0 ; record 5,1,– ; record 7,2,–" driven
    holds "locks to read" grep -q "^locks 31 record 3,0, 1 to read," driven
    holds "versions" grep -q "^versions 16 0,record 3,0000A500.* ; 1,record 5,07.* ; 2,record 7,22.* ; 3,record 3,000011" driven
    holds "what is live" grep -qx "live 16 transaction 0↳ transaction 2↳ transaction 3transaction 1" driven
    holds "the commit page in words" grep -q "^page0 25 page 0 (15 10 00 08 ..): committed, record 3" driven
    holds "keys" bash -c "grep -qx 'keys right twice event 2 of 35' driven && grep -qx 'keys left event 1 of 35' driven && grep -qx 'keys end event 35 of 35 true' driven"
    holds "the next refused, the next crash" bash -c "grep -q '^next refused refused 8' driven && grep -q '^next crash cut by a crash after 2' driven"
    holds "lost writes, and how" grep -qF "lost lost writes: 3 | 13,2,7,0,22,transaction 2 aborted at event 18 ; 16,3,3,2,11,the abort of transaction 2 at event 18 took it along ; 22,1,5,0,08,the power went at event 25, before transaction 1 had committed" driven
    holds "a lost write leads to its event" grep -qx "lost row 13 event 13 of 35" driven
    holds "columns can be wider" grep -qx "wider true" driven

    for round in {1..117}; do cat thirty-five.txt; done >longest.txt; echo crash >>longest.txt
    ok "a page of 4,096 events" "^4096 events" "$run" play paged longest.txt --page longest.html --dry
    drive longest.html 4096,1,2047,3300,25
    holds "4,096 events: without errors" bash -c "grep -qx 'END.*' driven && ! grep -q ^error driven"
    wrong=0
    for at in 1 25 2047 3300 4096; do grep -qx "store $at $(library longest.txt $at)" driven || wrong=$((wrong + 1)); done
    report "4,096 events: the bytes shown are the library's" $wrong
    holds "4,096 events: only what is in view is drawn" awk '$1 == "drawn" && $2 < 1500 && $4 < 4000 { found = 1 } END { exit !found }' driven
    holds "4,096 events: it stays quick" awk '$1 == "milliseconds" && $2 < 400 { found = 1 } END { exit !found }' driven
    holds "4,096 events: a lost write of the end" grep -q "^lost lost writes: 351 |" driven

    # A portion, names, and what is prepared.
    text 'recover\nbegin none as old\nlock old 2\nwrite old 2 0 0A\n' first.txt
    "$run" play paged first.txt --state paged.state >/dev/null; cp paged portion.fresh; cp paged.state portion.state
    text 'begin none as new\nlock new 3\nwrite new 3 2 A5\nprepare new 7\nlock 0 3\ncrash\nrecover\nquery 7\ndecide abort 7\nbegin none as last\nlock last 4\nwrite last 4 0 11\n' second.txt
    ok "a page of a portion, with names" "12 events" "$run" play paged second.txt --state paged.state --page portion.html --dry
    drive portion.html 0,1,2,3,4,5,6,7,8,9,10,11,12
    holds "a portion: without errors" bash -c "grep -qx 'END.*' driven && ! grep -q ^error driven"
    holds "a portion: what was live before" grep -qx "live 0 transaction 0" driven
    holds "a portion: a version from before" grep -q "^versions 0 0,record 2,0A00" driven
    holds "names" grep -qx "live 3 transaction 0transaction 1 (new)" driven
    holds "a name in the event" grep -qF "event 3 write 1 3 2 A5 (new) | transaction 1 writes A5 at offset 2 of record 3 | done" driven
    holds "what is prepared is locked" grep -q "^locks 4 .*record 3,locked until the decision on identity 7,–" driven
    holds "what is prepared outlasts a crash" grep -q "^page0 6 page 0 (13 10 00 08 07 ..): prepared with identity 7, record 3" driven
    holds "a decision to abort loses it" grep -qF "3,1 (new),3,2,A5,identity 7 was decided at event 9: abort" driven
    holds "what isn't decided" grep -qF "12,0 (last),4,0,11,not decided: transaction 0 is live at the end" driven
    # After each event of the portion: the store, and the versions that `show --state` finds in the library's state.
    versions() { # STORE STATE
        "$binary" show "$1" --state "$2" | awk '/^transaction/ { t = $2 + 0 } /^  its record/ { h = ""; for (i = 4; i <= 11; i++) h = h $i
            all = all (all ? " ; " : "") t ",record " $3 "," h } END { print all }'
    }
    mkdir part; wrong=0
    for at in {1..12}; do
        cp portion.fresh part/paged; cp portion.state part/paged.state
        head -$at second.txt | "$binary" play part/paged - --state part/paged.state >/dev/null
        grep -qx "store $at $(hex_of part/paged)" driven || wrong=$((wrong + 1))
        [ "$(sed -n "s/^versions $at //p" driven | sed 's/ ([a-z]*)//g')" = "$(versions part/paged part/paged.state)" ] || wrong=$((wrong + 1))
    done
    report "a portion: store and versions shown are the library's, after each event" $wrong
else
    echo "command line: there is no Chromium here; pages were made and not looked at"
fi
