#!/bin/sh
# Errors put on purpose into a copy of the independent program's server: the comparison must find each of them within the runs
# of the gate, and says at which line. Disturbances are errors by which one session is told of another; the pairs of runs must
# find each of them, by what the copy itself prints. The copy is one program; ERROR names the error that it makes.
set -eu
cd "$(dirname "$0")/.."
. tests/lib/runs.sh
out=target/mutants
src=tests/reference/src
rm -rf "$out"
mkdir -p "$out"
modules='call craft hex message name notices random replay server zone'
errors=
disturbances=

for module in $modules; do cp "$src/$module.rs" "$out/"; done
{
    printf '#![allow(dead_code, unused)]\n'
    for module in $modules; do printf 'mod %s;\n' "$module"; done
    cat <<'RUST'
use std::io::{Read, Write};
/// Whether the program makes an error.
fn wrong(error: &str) -> bool {
    static ERROR: std::sync::OnceLock<String> = std::sync::OnceLock::new();
    ERROR.get_or_init(|| std::env::var("ERROR").unwrap_or_default()) == error
}
fn main() {
    let mut input = Vec::new();
    std::io::stdin().lock().read_to_end(&mut input).expect("input");
    std::io::stdout().lock().write_all(replay::replay(&input).as_bytes()).expect("output");
}
RUST
} >"$out/main.rs"

# error NAME MODULE SCRIPT: one edit, by sed, with WRONG for the test whether the error is to be made. It must change exactly one
# line, or put lines before or behind exactly one.
error() {
    case " $errors " in *" $1 "*) ;; *) errors="$errors $1" ;; esac
    edit "$@"
}
disturbance() {
    case " $disturbances " in *" $1 "*) ;; *) disturbances="$disturbances $1" ;; esac
    edit "$@"
}
edit() {
    sed "$(printf '%s' "$3" | sed "s/WRONG/crate::wrong(\"$1\")/g")" "$out/$2.rs" >"$out/$2.new"
    hunks=$(diff "$out/$2.rs" "$out/$2.new" | grep -c '^[0-9]' || true)
    if [ "$hunks" -ne 1 ]; then
        echo "mutants: the edit of $1 in $2.rs applies $hunks times" >&2
        exit 1
    fi
    mv "$out/$2.new" "$out/$2.rs"
}

# ---- the errors seen on benches
error names-by-case name 's/a.eq_ignore_ascii_case(b))/(if WRONG { a == b } else { a.eq_ignore_ascii_case(b) }))/'
error add-for-each-subscription notices 's/let adds = new.iter().filter(|record| !known(record)).cloned()/let each = |r: \&Record| if WRONG { subscriptions.iter().filter(|s| crate::zone::matches(\&s.question, r)).count() } else { 1 };\n    let adds = new.iter().filter(|record| !known(record)).flat_map(|r| vec![r.clone(); each(r)])/'
error clear-and-add-back notices 's/^fn removal_for.*$/&\n    if WRONG { return removals_of(record)[0].clone(); }/'
error clear-and-add-back notices 's/let known = |record: &Record| old/let known = |record: \&Record| !(WRONG \&\& leaving.iter().any(|gone| name::same(\&gone.name, \&record.name))) \&\& old/'
error refused-subscribe-is-live server 's/^fn respond(.*$/&\n    if let (true, Verdict::Error(_), Verdict::Subscribe(question)) = (WRONG, \&verdict, message::judge(request).verdict) {\n        session.subscriptions.push(Subscription { id: message::id(request), question });\n    }/'
error unsubscribe-answered server 's/(Answer::Done, Vec::new())/if WRONG { (Answer::Sent, prefixed(\&craft::message(id, REPLY, \&[]))) } else { (Answer::Done, Vec::new()) }/'
error reconfirm-answered server 's/^        Verdict::Reconfirm(parts) => /        Verdict::Reconfirm(_) if WRONG => (Answer::Sent, prefixed(\&craft::message(0, REPLY, \&[]))),\n&/'
error unknown-unidirectional-answered message 's/(_, true) => Verdict::Abort,/(_, true) if !WRONG => Verdict::Abort,/;s/(_, false) => Verdict::Error/_ => Verdict::Error/'

# ---- messages
error response-flags-tested message 's/^    let counts_are_zero = /&!(WRONG \&\& be16(message, 2) \& 0x07ff != 0) \&\& /'
error later-tlvs-refused message 's/^        rest = &rest\[end..\];$/&\n        if WRONG \&\& !rest.is_empty() { return false; }/'
error opcode-after-qr message 's/^    if (message\[2\] >> 3) & 0x0f != OPCODE_DSO {$/    if WRONG \&\& message[2] \& 0x80 != 0 { return other(Verdict::Abort); }\n&/'
error used-id-before-form message 's/^        Verdict::Keepalive | Verdict::Subscribe(_) if id_in_use/        Verdict::Error(ErrorCode::FormErr) if WRONG \&\& id_in_use() => Verdict::Abort,\n&/'
error used-id-taken-by-keepalive message 's/^        Verdict::Keepalive | Verdict::Subscribe(_) if id_in_use/        Verdict::Keepalive if WRONG => Verdict::Keepalive,\n&/'
error unknown-type-after-used-id message 's/^        Verdict::Keepalive | Verdict::Subscribe(_) if id_in_use/        Verdict::Error(ErrorCode::DsoTypeNi) if WRONG \&\& id_in_use() => Verdict::Abort,\n&/'
error limit-before-same-question message 's/^    } else if live.iter().any(|subscription| subscription.question.same/    } else if WRONG \&\& live.len() >= MAX_SUBSCRIPTIONS {\n        Verdict::Error(ErrorCode::ServFail)\n&/'
error limit-before-zone message 's/^    if !name::within(zone, &question.name) {$/    if WRONG \&\& live.len() >= MAX_SUBSCRIPTIONS {\n        return Verdict::Error(ErrorCode::ServFail);\n    }\n&/'
error seventeen-subscriptions message 's/^    } else if live.len() >= MAX_SUBSCRIPTIONS {/    } else if live.len() >= MAX_SUBSCRIPTIONS + usize::from(WRONG) {/'
error reconfirm-of-any message 's/if data.len() < end + 4 || /&!WRONG \&\& /'
error servfail-for-a-minute server 's/let delay = /&if WRONG \&\& code == ErrorCode::ServFail { 60_000 } else /'
error asked-values-granted server 's/^    let data = \[GRANTED_TIMEOUT/    if WRONG { session.clocks.interval = FIRST_INTERVAL; }\n&/'

# ---- names
error label-of-64 name 's/if label > MAX_LABEL {/if label > MAX_LABEL + u8::from(WRONG) {/'
error name-of-256 name 's/next - place > MAX_NAME {/next - place > MAX_NAME + usize::from(WRONG) {/'
error zone-by-octets name 's/^    let (zone, name) = (labels(zone), labels(name));$/    if WRONG { return name.to_ascii_lowercase().ends_with(\&zone.to_ascii_lowercase()[1..]); }\n&/'
error zone-itself-outside name 's/name.len() >= zone.len() \&\& /name.len() >= zone.len() + usize::from(WRONG) \&\& /'

# ---- clocks and sessions
error keepalive-restarts-both server 's/if !judgment.keepalive {/if !judgment.keepalive || WRONG {/'
error idle-one-late server 's/time - self.inactivity_start >= limit/time - self.inactivity_start >= limit + u64::from(WRONG)/'
error silent-one-late server 's/time - self.keepalive_start >= 2/time - self.keepalive_start >= u64::from(WRONG) + 2/'
error idle-beside-subscriptions server 's/silent || (!subscribed \&\&/silent || ((WRONG || !subscribed) \&\&/'
error refusal-takes-time server 's/if !outcome.is_refused() {/if !outcome.is_refused() || WRONG {/'
error highest-free-session server 's/let Some(free) = self.sessions.iter().position(Option::is_none)/let Some(free) = (if WRONG { self.sessions.iter().rposition(Option::is_none) } else { self.sessions.iter().position(Option::is_none) })/'
error clock-of-32-bits server 's/^        if call.time() < self.latest {$/        if WRONG \&\& (call.time() as u32) < self.latest as u32 || !WRONG \&\& call.time() < self.latest {/'

# ---- records and batches
error cname-of-its-own-type zone 's/ || record.rtype == CNAME)/ || record.rtype == CNAME \&\& !WRONG)/'
error asterisk-matches-all zone 's/^    name::same(&question.name, &record.name)$/    (name::same(\&question.name, \&record.name) || WRONG \&\& question.name.starts_with(b"\\x01*") \&\& name::within(\&question.name[2..], \&record.name))/'
error put-respells zone 's/^    match (edit.ttl == TTL_ONE, held) {$/    if let (true, Some(at)) = (WRONG, held) { records[at].name = edit.name.clone(); }\n&/'
error put-moves-to-the-end zone 's/^    match (edit.ttl == TTL_ONE, held) {$/    if let (true, false, Some(at)) = (WRONG, edit.ttl == TTL_ONE, held) { records.remove(at); records.push(edit); return Ok(()); }\n&/'
error delete-fills-the-gap-from-the-end zone 's/^            records.remove(at);$/            if WRONG { records.swap_remove(at); } else { records.remove(at); }/'
error full-before-held zone 's/^    match (edit.ttl == TTL_ONE, held) {$/    if WRONG \&\& edit.ttl != TTL_ONE \&\& records.len() >= MAX_RECORDS { return Err(Fault::Full); }\n&/'
error parse-before-count zone 's/if edits == MAX_EDITS {/if edits == MAX_EDITS \&\& (!WRONG || read_record(batch, place).is_some()) {/'
error rdata-of-129 zone 's/edit.rdata.len() <= MAX_RDATA$/edit.rdata.len() <= MAX_RDATA + usize::from(WRONG)/'
error collective-edit-allowed zone 's/(edit.ttl <= MAX_TTL || /(edit.ttl <= MAX_TTL || WRONG \&\& edit.ttl == 0xffff_fffe || /'

# ---- change notifications
error widest-removal-kept notices 's/if matches!(widest.scope, Scope::Single { .. }) {/if WRONG || matches!(widest.scope, Scope::Single { .. }) {/'
error one-removal-a-record notices 's/^    let covered = |removal: &Removal| leaving/    if WRONG { return removals_of(record)[3].clone(); }\n&/'
error true-of-the-view-alone notices 's/removal_for(record, &leaving, new_records)/removal_for(record, \&leaving, if WRONG { \&new } else { new_records })/'
error new-ttl-not-told notices 's/other.same(record) \&\& other.ttl == record.ttl/other.same(record) \&\& (WRONG || other.ttl == record.ttl)/'
error new-spelling-told notices 's/other.same(record) \&\& (/other.same(record) \&\& !(WRONG \&\& other.name != record.name) \&\& (/'
error type-of-all-classes-any notices 's/Scope::AllClasses => (name, 0, ANY/Scope::AllClasses => (name, if WRONG { ANY } else { 0 }, ANY/'
error first-push-without-the-known server 's/records.iter().filter(|record| zone::matches(&question, record))/records.iter().filter(|record| zone::matches(\&question, record) \&\& !(WRONG \&\& session.subscriptions.iter().any(|s| zone::matches(\&s.question, record))))/'

# ---- disturbances, with what the other sessions hold at hand where a message is judged and where a batch is told
edit none server 's/^        let live = self.sessions\[number\].as_mut()/        let beside: Vec<Subscription> = self.sessions.iter().enumerate().filter(|(other, _)| *other != number).filter_map(|(_, live)| live.as_ref()).flat_map(|live| live.subscriptions.clone()).collect();\n&/'
judged() { disturbance "$1" server "s/^        let judgment = judge_in_session(.*\$/&\n        let judgment = if WRONG \&\& $2 { Judgment { verdict: $3, ..judgment } } else { judgment };/"; }
answered() { disturbance "$1" server "s/^        let (answer, output) = respond(.*\$/&\n        if WRONG { if let $2 = message::judge(bytes).verdict { self.sessions.iter_mut().flatten().for_each(|live| $3); } }/"; }
judged subscriptions-limited-together 'matches!(judgment.verdict, Verdict::Subscribe(_)) \&\& live.subscriptions.len() + beside.len() >= 24' 'Verdict::Error(ErrorCode::ServFail)'
judged used-id-of-any-session 'matches!(judgment.verdict, Verdict::Keepalive | Verdict::Subscribe(_)) \&\& beside.iter().any(|other| other.id == message::id(bytes))' 'Verdict::Abort'
judged question-of-any-session 'matches!(\&judgment.verdict, Verdict::Subscribe(asked) if beside.iter().any(|other| other.question.same(asked)))' 'Verdict::Abort'
answered unsubscribe-for-all 'Verdict::Unsubscribe(id)' 'live.subscriptions.retain(|other| other.id != id)'
answered interval-for-all 'Verdict::Keepalive' 'live.clocks.interval = GRANTED_INTERVAL'
disturbance clock-of-the-next-session server 's/^        let live = self.sessions\[number\].as_mut()/        if let (true, Some(next)) = (WRONG, self.sessions[(number + 1) % SESSIONS].as_mut()) { next.clocks.keepalive_start = time; }\n&/'
disturbance first-push-without-what-others-know server 's/^        let (answer, output) = respond(live, &self.records, /        let known = |record: \&Record| WRONG \&\& beside.iter().any(|other| zone::matches(\&other.question, record));\n        let records: Vec<Record> = self.records.iter().filter(|record| !known(record)).cloned().collect();\n        let (answer, output) = respond(live, \&records, /'
disturbance abort-ends-the-next-session server 's/^            self.sessions\[number\] = None;$/&\n            if WRONG { self.sessions[(number + 1) % SESSIONS] = None; }/'
disturbance open-takes-a-living-session server 's/^            return Outcome::refused(Refusal::AllOpen);$/            if WRONG { self.sessions[SESSIONS - 1] = Some(Session { subscriptions: Vec::new(), clocks: Clocks::new(time) }); }\n&/'
disturbance subscriptions-left-by-an-abort server 's/^            self.sessions\[number\] = None;$/            if WRONG { LEFT.with(|left| left.borrow_mut()[number] = live.subscriptions.clone()); }\n&/'
disturbance subscriptions-left-by-an-abort server 's/^fn refusal_of(.*$/thread_local! { static LEFT: std::cell::RefCell<[Vec<Subscription>; SESSIONS]> = Default::default(); }\n&/'
disturbance subscriptions-left-by-an-abort server 's/Some(Session { subscriptions: Vec::new(), clocks: Clocks::new(time) });$/Some(Session { subscriptions: if WRONG { LEFT.with(|left| std::mem::take(\&mut left.borrow_mut()[free])) } else { Vec::new() }, clocks: Clocks::new(time) });/'
disturbance told-once-a-batch server 's/^        for (number, session) in self.sessions.iter().enumerate() {$/        let mut told: Vec<Change> = Vec::new();\n&/'
disturbance told-once-a-batch server 's/^            let list = changes(.*$/&\n            let list: Vec<Change> = list.into_iter().filter(|change| !(WRONG \&\& told.contains(change))).collect();\n            told.extend(list.iter().cloned());/'
disturbance pushes-share-their-room server 's/^                outcome.output\[number\] = prefixed(&push(&list));$/&\n                if WRONG \&\& outcome.output.iter().map(Vec::len).sum::<usize>() > SESSION_OUTPUT { outcome.output[number].clear(); }/'
disturbance tick-at-the-latest-time server 's/^            Call::Tick { time } => self.tick(\*time),$/            Call::Tick { time } => self.tick(if WRONG { self.latest } else { *time }),/'
disturbance open-starts-at-the-latest-time server 's/^            Call::Open { time } => self.open(\*time),$/            Call::Open { time } => self.open(if WRONG { self.latest } else { *time }),/'
disturbance reconfirm-deletes-the-record server 's/^        let (answer, output) = respond(.*$/&\n        if let (true, Answer::Reconfirm(p)) = (WRONG, answer) { let part = |at: message::Place| \&bytes[at.start..at.start + at.length]; self.records.retain(|r| !(crate::name::same(\&r.name, part(p.name)) \&\& r.rtype.to_be_bytes() == part(p.rtype) \&\& r.class.to_be_bytes() == part(p.class) \&\& r.rdata == part(p.rdata))); }/'
disturbance tick-ends-one-session server 's/^                \*place = None;$/                if WRONG \&\& outcome.ended.contains(\&true) { continue; }\n&/'

run rustc --edition 2021 -O -o "$out/mutant" "$out/main.rs"
run cargo build --quiet --release -j1 --manifest-path tests/reference/Cargo.toml

# Without an error the copy is the server itself, and does not disturb.
for command in compare pairs; do
    $reference "$command" --language replay --seed "$seed" --calls 5000 -- "$out/mutant" >"$out/none.txt" || {
        echo "mutants: the copy without an error differs"
        cat "$out/none.txt"
        exit 1
    }
done

missed=0
found=0
# search COMMAND CALLS ERROR...: what the command says of each error.
search() {
    command=$1 most=$2
    shift 2
    for error in "$@"; do
        status=0
        ERROR=$error $reference "$command" --language replay --seed "$seed" --calls "$most" -- "$out/mutant" >"$out/$error.txt" || status=$?
        if [ "$status" -eq 1 ] && grep -aq '^difference: ' "$out/$error.txt"; then
            found=$((found + 1))
            printf '%-38s ' "$error"
            sed -n '1s/^difference: //p' "$out/$error.txt" | tr '\n' ' '
            sed -n 's/.*so do these \([0-9]*\),.*/(\1 lines show it)/p' "$out/$error.txt"
        else
            missed=$((missed + 1))
            echo "$error: not found"
        fi
    done
}
# shellcheck disable=SC2086
search compare "$calls" $errors
echo "$found errors found, $missed not found"
errors_found=$found found=0
# shellcheck disable=SC2086
search pairs "$calls" $disturbances
echo "$found disturbances found; in all $((errors_found + found)) errors found, $missed not found"
[ "$missed" -eq 0 ] && [ "$errors_found" -gt 0 ] && [ "$found" -gt 0 ]
