#!/usr/bin/env python3
"""Puts faults back into the replicas, one at a time, and checks that the tests find each of them.

    put_back.py PREFIX [FAULT ..]

PREFIX has the library for C. Each fault is a change of a copy of replica/, which is built and tested: by a test of causes.py, by another
program of the tests, or by seeds of storm.py. Without FAULT all faults are tried, which takes about an hour; FAULT is a part of the name of
some. For each it prints what found it. The status is 0 only if each fault can still be put back and is found.
"""

import shutil
import subprocess
import sys
import tempfile
import time
from dataclasses import dataclass
from pathlib import Path

from schedule import FEW_IDS

HERE = Path(__file__).resolve().parent
REPLICA = HERE.parent.parent / "replica"
LONGEST = 1200.0  # seconds


@dataclass
class Edit:
    """A text of a file, and what stands in its place."""

    file: str
    old: str
    new: str


@dataclass
class Fault:
    """A fault: what it is, how it is put back, and what has to find it.

    That is a test of causes.py; a program: parts, or one of replica/tests; or otherwise a build and seeds of storm.py.
    """

    name: str
    edits: list[Edit]
    cause: str = ""
    program: str = ""
    build: str = "plain"
    seeds: str = "1-40"


FAULTS = [
    Fault(
        "answers go to any reply subject",
        [Edit("answers.c", "is_inbox(answers, natsMsg_GetReply(message))", 'is_inbox(answers, "_INBOX.x")')],
        "reply_subjects",
    ),
    Fault(
        "snapshots of all logs of a name are taken for one log",
        [
            Edit("snapshot_load.c", '"%s-%s-", log, identity)', '"%s-", log)'),
            Edit("snapshot_load.c", '  if (!wrong && strcmp(head->identity, identity)) wrong = "it is of another log";\n', ""),
            Edit("snapshot_load.c", '"%s/%s-%s-%020" PRIu64', '"%s/%s-%020" PRIu64'),
            Edit("snapshot_load.c", "snapshots->folder, snapshots->log, identity, number", "snapshots->folder, snapshots->log, number"),
        ],
        "log_made_again",
    ),
    Fault(
        "the log is cut off up to the newest snapshot",
        [Edit("life.c", "last = older.number < applied - keep ? older.number : applied - keep;", "last = applied - keep;")],
        "keep_two_snapshots",
    ),
    Fault(
        "a snapshot is not read back before a cut",
        [
            Edit("snapshot_write.c", "!snapshot_verify(path, snapshots, identity, older);", "(older->number = numbers.at[i]);"),
            Edit("life.c", "&older.before, &older.chain) != SAID_YES) return;", "&older.before, &older.chain) == 9) return;"),
        ],
        "bad_snapshot_is_no_base",
    ),
    Fault(
        "a replica that is late drops its rows",
        [Edit("life.c", "    leave_group(replica, STATE_LATE);\n    replica->is_away = false;\n",
              '    drop_rows(replica, "it has been behind the log for too long");\n    return;\n')],
        "no_servers",
    ),
    Fault(
        "a replica without its log drops its rows",
        [Edit("life.c", "    become_orphan(replica);\n", "    close_rows(replica);\n    again_later(replica);\n")],
        "lost_servers",
    ),
    Fault(
        "a replica that publishes to a log that was made again drops its rows",
        [
            Edit("life.c", "  if (why == MISSING_OTHER_LOG && has_any(replica)) {\n",
                 "  if (why == MISSING_HISTORY) {\n    lose_rows(replica, words[why]);\n"
                 "  } else if (why == MISSING_OTHER_LOG && has_any(replica)) {\n"),
        ],
        "log_made_again_under_load",
    ),
    Fault(
        "a copy of a message whose id was forgotten is applied again",
        [Edit("database.c", "if (since < progress->forgotten || recents_find", "if (recents_find")],
        "delayed_copy",
    ),
    Fault(
        "a copy of a message whose id was forgotten is applied again, by seeds",
        [Edit("database.c", "if (since < progress->forgotten || recents_find", "if (recents_find")],
        build="forgetful",
    ),
    Fault(
        "the number at which a publisher checked its ids does not count",
        [Edit("database.c", "uint64_t since = entry->since < checked ? entry->since : checked;", "uint64_t since = entry->since;")],
        build="forgetful",
    ),
    Fault(
        "sums of messages that the log lost count",
        [Edit("life.c", "  replica->sums = (struct sums){.own_count = 0};", "  replica->sums.own_count = 0;")],
        "sums_of_lost_history",
    ),
    Fault(
        "rows that the log lost are in a snapshot of a replica that ends",
        [Edit("life.c", "  return replica->state == STATE_HALTED && replica->why_halted == MISSING_HISTORY;\n", "  return !replica;\n")],
        "lost_rows_at_the_end",
    ),
    Fault(
        "rows are dropped for a snapshot that does not reach the log",
        [Edit("life.c", "  if (head.number + 1 < first || ", "  if (!first || ")],
        "snapshot_short_of_the_log",
    ),
    Fault(
        "a snapshot of a lost end of the log is loaded",
        [
            Edit("life.c", "number, &head->before, &head->chain) == SAID_YES;", "number, &head->before, &head->chain) != SAID_NOTHING;"),
            Edit("life.c", "if (!is_same_digest(own, &chain)) on_other_history", "if (!own) on_other_history"),
        ],
        "lost_end",
    ),
    Fault(
        "another history in a message is not told",
        [Edit("life.c", "if (!is_same_digest(own, &chain)) on_other_history", "if (!own) on_other_history")],
        "chained",
    ),
    Fault(
        "a replica in doubt writes snapshots",
        [Edit("life.c", "replica->is_doubted || database_is_between", "database_is_between")],
        "different_sums",
    ),
    Fault(
        "a write to a server that is held up never ends",
        [Edit("connect.c", "  if (status == NATS_OK) status = natsOptions_SetWriteDeadline(options, WRITE_DEADLINE);\n", "")],
        "blocked_server",
    ),
    Fault(
        "requests whose askers have gone are worked off",
        [Edit("answers.c", "return clock_now() + (int64_t)(wait <", "return INT64_MAX / 2 + (int64_t)(wait <")],
        "dead_requests",
    ),
    Fault(
        "waiting requests have no limit of bytes",
        [
            Edit("queue.h", "MOST_REQUEST_BYTES = 64 * 1024 * 1024", "MOST_REQUEST_BYTES = 2047 * 1024 * 1024"),
            Edit("answers.c", "body.length > MOST_LINE_BYTES + 2", "body.length > 9 * MOST_SCRIPT_BYTES"),
            Edit("answers.c", 'return has_long_line(body) ? "error 10 line too long\\n" : NULL;', "return NULL;"),
        ],
        "bounded_memory",
    ),
    Fault(
        "anyone may read snapshots",
        [Edit("snapshot_write.c", "is_done = fclose(file) == 0 &&", "is_done = fchmod(descriptor, 0666) == 0 && fclose(file) == 0 &&")],
        "snapshot_at_the_end",
    ),
    Fault(
        "a condition that is not met refuses nothing",
        [Edit("database.c", "else if (has_to_match && !mmdb_count(", "else if (has_to_match && 99 < mmdb_count(")],
        "conditions",
    ),
    Fault(
        "a question is answered before the number that it demands",
        [Edit("requests.c", "else if (number <= replica->database.applied)", "else if (number <= replica->database.applied + 1)")],
    ),
    Fault(
        "a change is answered before it is applied",
        [Edit("requests.c", "waiter->number <= replica->database.applied;) {", "waiter->number <= replica->database.applied + 1;) {")],
    ),
    Fault(
        "a refused script is not taken back",
        [
            Edit("database.c", "*outcome = OUTCOME_REFUSED;", "*outcome = OUTCOME_REFUSED, mmdb_execute(&database->db, COMMIT, 6);"),
            Edit("database.c", "enum { MOST_REPLY_BYTES", '#define COMMIT (const uint8_t *)"COMMIT"\nenum { MOST_REPLY_BYTES'),
        ],
    ),
    Fault(
        "the second try of a change is applied again",
        [Edit("database.c", "|| recents_find(&database->recents", "|| number % 2 && recents_find(&database->recents")],
    ),
    Fault(
        "a snapshot lacks the ids",
        [
            Edit("snapshot_write.c", "i < database->recents.count; i++) put_recent", "i < database->recents.count / 2; i++) put_recent"),
            Edit("snapshot_load.c", "return is_same_digest(&sum, &head->sum) ? NULL", "return is_same_digest(&sum, &sum) ? NULL"),
        ],
        build="forgetful",
    ),
    Fault(
        "memory that is short in a script leaves half of it",
        [Edit("database.c", "return roll_back(database) ? APPLY_MEMORY : APPLY_BROKEN;", "continue;")],
        seeds="1-80",
    ),
    Fault(
        "a linearizable question of mmdb-ask sees what its replica has",
        [Edit("mmdb-ask.c", "asker->is_linearizable && !reach_end(asker)", "asker->is_linearizable && asker->loads")],
    ),
    Fault(
        "messages are freed after libnats is closed",
        [
            Edit("mmdb-replica.c", "  queue_close(&replica.queue);\n", ""),
            Edit("mmdb-replica.c", '  tell(&replica, "ends");\n', '  queue_close(&replica.queue);\n  tell(&replica, "ends");\n'),
        ],
        seeds="1-80",
    ),
    Fault(
        "the last message of a log is taken twice after a new start",
        [
            Edit("life.c", "database.applied + 1, identity)) return;", "database.applied + !replica->begun_at, identity)) return;"),
            Edit("life.c", "event->number == replica->database.applied + 1;", "event->number >= replica->database.applied;"),
        ],
    ),
    # Rows that the log does not have, and logs that are made again.
    Fault(
        "rows that the log lost are dropped where there is no folder",
        [Edit("life.c", "if (has_any(replica) && !replica->snapshots.folder) {", "if (!replica->database.applied) {")],
        "no_folder_for_rows",
    ),
    Fault(
        "a log that is made again while another one is cut off raises no alarm",
        [Edit("life.c", "  replica->cut_below = last + 1;\n", "")],
        "cut_of_another_log",
    ),
    Fault(
        "rows that the log lost are dropped in the midst of a message",
        [Edit("life.c", "|| replica->is_kept) return true;", "|| replica->is_kept || database_is_between(&replica->database)) return true;")],
        "part_of_a_message",
    ),
    Fault(
        "another message is taken for the rest of one that is applied in part",
        [Edit("database.c", "if (database_is_between(database) && !is_same_digest(&chain", "if (!database && !is_same_digest(&chain")],
        program="parts",
    ),
    Fault(
        "a .lost file replaces one of another history",
        [Edit("snapshot_write.c", "  write_digest(chain, &database->chain);\n  int length", "  strcpy(chain, \"00000000\");\n  int length")],
        program="parts",
    ),
    Fault(
        "the sum of a snapshot covers other WATCH lines than the snapshot has",
        [Edit("snapshot_load.c", "database_sum(database, watches, &sum)", "(watches && snapshot_sum(database, &sum))")],
        program="parts",
    ),
    Fault(
        "sums do not cover the rows of standing queries",
        [
            Edit("database.c", "count_lists(rest, is_part)", "count_lists(rest, false)"),
            Edit("database.c", "next_list(&rest, is_part, question)", "next_list(&rest, false, question)"),
        ],
        program="parts",
    ),
    Fault(
        "rows of an orphan that no folder took at once are lost at its end",
        [Edit("life.c", "(has_lost_history(replica) || replica->state == STATE_ORPHANED)) keep_lost", "has_lost_history(replica)) keep_lost")],
        "rows_of_an_orphan_at_the_end",
    ),
    Fault(
        "sums of another history count",
        [Edit("sums.c", "return own->has_chain && other->has_chain &&", "return !own->number && other->has_chain &&")],
        "sums_of_another_history",
    ),
    Fault(
        "an older look at the log hides a newer one",
        [
            Edit("log.c", "while (last_before < last && !atomic_compare_exchange_weak(&log->last, &last_before, last)) continue;",
                 "if (last_before < last) atomic_store(&log->last, last);"),
        ],
        program="parts",
    ),
    # Children.
    Fault(
        "a long question holds the replica up",
        [Edit("requests.c", "answers_payload(&replica->answers), MOST_READS}", "answers_payload(&replica->answers), ANY_READS}")],
        "long_question",
    ),
    Fault(
        "a child is not stopped when its time is over",
        [Edit("child.c", "if (left <= 0 || atomic_load", "if (atomic_load")],
        "long_question",
    ),
    Fault(
        "the answer of a child has the number of the replica",
        [Edit("tasks.c", ".number = task->number, .chain = &task->chain,", ".number = replica->database.applied, .chain = &task->chain,")],
        build="forgetful",
        seeds="1-80",
    ),
    Fault(
        "the sum of a child is not published",
        [Edit("tasks.c", "publish_own_sum(replica, task->number, &sum, &task->chain);", "tell(replica, \"summed\");")],
        "sums_of_children",
    ),
    # libnats.
    Fault(
        "a subscription is freed as soon as it ends",
        [
            Edit(
                "connect.c",
                "  if (ended->count < MOST_ENDED) ended->at[ended->count++] = *subscription;\n",
                "  natsSubscription_Destroy(*subscription);\n",
            )
        ],
        "leaves_under_load",
    ),
    # Ids, files and signals.
    Fault(
        "the hash of ids is not SipHash",
        [Edit("digest.c", "  sip_word(&sip, word_at(last));\n", "")],
        program="parts",
    ),
    Fault(
        "the hash of ids has the same key in each process",
        [Edit("recent.c", "getrandom(recents->key, sizeof recents->key, 0) == sizeof recents->key", "recents->key[0] == 0")],
        program="parts",
    ),
    Fault(
        "two replicas of one name write the same .part file",
        [
            Edit("snapshot_write.c", '"%s/%s-%s-XXXXXX%s"', '"%s/%s-%s-same%s"'),
            Edit("snapshot_write.c", "mkostemps(path, sizeof part_ending - 1, O_CLOEXEC)", "open(path, O_RDWR | O_CREAT, 0600)"),
        ],
        "same_name",
    ),
    Fault(
        "SIGTERM is not heard while there is no server",
        [Edit("life.c", "    if (!connect_all(replica)) {", "    while (!connect_all(replica)) nats_Sleep(PAUSE);\n    if (0) {")],
        "ends_without_servers",
    ),
    # Security.
    Fault(
        "a replica without --keep may purge the log",
        [Edit("nats.conf", '"$JS.FC.mmdb.>"]', '"$JS.FC.mmdb.>", "$JS.API.STREAM.PURGE.mmdb"]')],
        program="roles.py",
    ),
    Fault(
        "one who asks may send changes",
        [Edit("nats.conf", '["mmdb.ask", "mmdb.ask.>", "mmdb.status"]', '["mmdb.ask", "mmdb.ask.>", "mmdb.status", "mmdb.change"]')],
        program="roles.py",
    ),
    Fault(
        "others than its user may read a login file",
        [Edit("connect.c", "status.st_mode & (S_IRWXG | S_IRWXO) ?", "status.st_mode & S_ISVTX ?")],
        program="parts",
    ),
    Fault(
        "ps shows a password of --servers",
        [Edit("mmdb-replica.c", "  hide_passwords(value);\n", "")],
        program="roles.py",
    ),
    Fault(
        "a credentials file is not used",
        [Edit("connect.c", "if (status == NATS_OK && *login->credentials)", "if (status == NATS_OK && 0)")],
        program="roles.py",
    ),
    # Operators.
    Fault(
        "a backup lacks its end",
        [Edit("status.c", "(length = fread(part, 1, PART_BYTES, file));", "(length = fread(part, 1, PART_BYTES, file) / 2);")],
        program="restore.py",
    ),
    Fault(
        "a backup that is cut off is loaded",
        [Edit("load.c", "? strerror(errno) : refuse_rest(file);", "? strerror(errno) : refuse_rest ? NULL : \"\";")],
        "cut_snapshot",
    ),
    Fault(
        "what is printed without an output goes to a server",
        [Edit("mmdb-ask.c", "  open_standard_files();\n", "")],
        "closed_files",
    ),
    Fault(
        "many headers are read",
        [Edit("answers.c", "if (size_of_message(message) > body.length + MOST_HEAD_BYTES)", "if (!message)")],
        "many_headers",
    ),
    Fault(
        "a backup that lost a part on its way is taken for whole",
        [Edit("mmdb-ask.c", "(take_number(&body, &sent) && sent == received)", "(take_number(&body, &sent) && (sent || received))")],
        "lost_part_of_a_backup",
    ),
    Fault(
        "parts of a backup are dropped while its reader is slow",
        [Edit("mmdb-ask.c", "natsSubscription_SetPendingLimits(*answers, -1, -1);", "NATS_OK;")],
        "slow_reader_of_a_backup",
    ),
    Fault(
        "a linearizable question has an id that an earlier run had",
        [Edit("mmdb-ask.c", '"%s-end-%" PRIu64, asker->random, ++asker->ends', '"%s-end-%" PRIu64, asker->prefix, ++asker->ends')],
        "linearizable_again",
    ),
    Fault(
        "children are not waited for where their ends were ignored",
        [Edit("mmdb-replica.c", "  signal(SIGCHLD, SIG_DFL);\n", "")],
        "ignored_children",
    ),
    Fault(
        "no other replica takes the snapshots over",
        [Edit("life.c", "if (newest <= replica->snapshot_at || newest > applied) return false;", "if (newest) return true;")],
        program="restore.py",
    ),
    Fault(
        "connections that libnats closed stay closed",
        [Edit("life.c", "  if (!wrong) return;\n  tell(replica, \"a connection", "  if (replica) return;\n  tell(replica, \"a connection")],
        program="restore.py",
    ),
    Fault(
        "no snapshot is written at SIGTERM",
        [Edit("life.c", "  if (has_news && replica->options.snapshot_every) write_snapshot(replica);\n", "  (void)has_news;\n")],
        "snapshot_at_the_end",
    ),
    Fault(
        "a message of a newer format is taken for a malformed one",
        [Edit("database.c", "  if (is_newer(message)) return", "  if (!message && is_newer(message)) return")],
        program="parts",
    ),
    # Many changes in a message or a request.
    Fault(
        "changes do not gather",
        [Edit("requests.c", "  if (has_usual ||", "  if (batch->count || has_usual ||")],
        "gathered_changes",
    ),
    Fault(
        "changes gather into messages that the servers do not take",
        [Edit("requests.c", "most = payload < GATHERED_BYTES ? payload : GATHERED_BYTES;", "most = payload ? GATHERED_BYTES : 0;")],
        "small_messages",
    ),
    Fault(
        "of several changes in a message, the first alone is applied",
        [Edit("database.c", "(size_t i = 0; next_entry(&rest, &entry); i++) {", "(size_t i = 0; !i && next_entry(&rest, &entry); i++) {")],
        "gathered_changes",
    ),
    Fault(
        "a change that was applied before is answered with another number",
        [Edit("requests.c", ".number = recent->sequence, .body = recent->replies", ".number = number, .body = recent->replies")],
        "changes_in_one_request",
    ),
    Fault(
        "changes of one request that are no scripts are published",
        [Edit("requests.c", "(verdict == VERDICT_BAD || take_entry(replica, &entry))", "take_entry(replica, &entry)")],
        "changes_in_one_request",
    ),
]


def replace(path: Path, old: str, new: str) -> None:
    text = path.read_text()
    if text.count(old) != 1:
        raise ValueError(f"{path.name} has {text.count(old)} times: {old}")
    path.write_text(text.replace(old, new))


def make(prefix: Path, folder: Path, build: str) -> None:
    words = ["make", "-s", "-j4", "-C", str(folder / "replica"), f"OUT={folder / 'builds' / build}", "CFLAGS=-O1 -g"]
    subprocess.run(["env", f"PKG_CONFIG_PATH={prefix}/lib/pkgconfig", *words], check=True)


def make_base(prefix: Path, folder: Path, build: str) -> None:
    """The programs without a fault, from which only what a fault changes is built anew."""
    shutil.copytree(REPLICA, folder / "replica")
    for name in ("tests", "examples"):
        (folder / name).symlink_to(REPLICA.parent / name)
    replace(folder / "replica" / "Makefile", "-Wall -Wextra -Werror", "-w")
    if build == "forgetful":
        replace(folder / "replica" / "recent.h", "MOST_RECENT = 65536", f"MOST_RECENT = {FEW_IDS}")
        replace(folder / "replica" / "replica.h", "MOST_READS = 200000", "MOST_READS = 10")
    make(prefix, folder, build)
    refuse = ["cc", "-O1", "-D_GNU_SOURCE", "-shared", "-fPIC", "-o", str(folder / "refuse.so"), str(HERE / "refuse.c")]
    subprocess.run(refuse, check=True)


def put_back(prefix: Path, base: Path, folder: Path, fault: Fault) -> None:
    if not (base / fault.build).exists():
        make_base(prefix, base / fault.build, fault.build)
    shutil.copytree(base / fault.build, folder, symlinks=True, dirs_exist_ok=True)
    for edit in fault.edits:
        replace(folder / "replica" / edit.file, edit.old, edit.new)
    make(prefix, folder, fault.build)


def test_words(prefix: Path, folder: Path, fault: Fault) -> list[str]:
    programs = str(folder / "builds" / fault.build)
    if fault.cause:
        return [sys.executable, str(HERE / "causes.py"), programs, fault.cause]
    if fault.program == "parts":
        return ["bash", str(folder / "tests/replicas/parts"), str(prefix), programs]
    if fault.program:
        return [sys.executable, str(folder / "replica/tests" / fault.program), programs]
    words = [sys.executable, str(HERE / "storm.py"), str(folder / "builds"), str(prefix / "lib/libmmdb.so"), str(folder / "refuse.so")]
    return [*words, str(folder / "found"), fault.seeds, "--only", fault.build, "--lanes", "2", "--until-found"]


def found_by(prefix: Path, base: Path, fault: Fault) -> str:
    """What found a fault; an empty text if nothing did."""
    folder = Path(tempfile.mkdtemp(prefix="put-back"))
    try:
        put_back(prefix, base, folder, fault)
        done = subprocess.run(test_words(prefix, folder, fault), capture_output=True, text=True, timeout=LONGEST, check=False)
        named = () if fault.program else ("seed", fault.cause or "seed")
        lines = [line for line in done.stdout.splitlines() if not named or line.startswith(named)]
        return lines[0] if done.returncode and lines else ""
    finally:
        shutil.rmtree(folder, ignore_errors=True)


def try_all(prefix: Path, base: Path, faults: list[Fault]) -> int:
    """Puts faults back, and returns how many were not found."""
    missed = 0
    for fault in faults:
        began = time.monotonic()
        try:
            found = found_by(prefix, base, fault)
        except (ValueError, subprocess.SubprocessError) as wrong:
            found = ""
            print(f"{fault.name}: {wrong}")
        missed += not found
        print(f"{fault.name}: {'found by ' + found[:160] if found else 'NOT FOUND'} ({time.monotonic() - began:.0f} s)", flush=True)
    return missed


def main() -> int:
    prefix, names = Path(sys.argv[1]).resolve(), sys.argv[2:]
    chosen = [fault for fault in FAULTS if not names or any(name in fault.name for name in names)]
    with tempfile.TemporaryDirectory() as base:
        missed = try_all(prefix, Path(base), chosen)
    return 1 if missed or not chosen else 0


if __name__ == "__main__":
    sys.exit(main())
