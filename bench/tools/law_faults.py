#!/usr/bin/env python3
"""Puts faults into the definitions of `history`, one at a time, and sees that a law fails: that the laws are not met by a wrong node.

Each fault is put into a copy of the crates, with what has to change in the proofs below the law, so that all that is said there is
proved still; no statement changes. The crates up to the law are then checked, in their order. A line tells which crate was refused
first. Where that is another one than the law that is to stop the fault, the line says so, and the status is 1. A proof that is refused
is no proof that the law is false: the table names the clause that is, for the reader to judge. One fault takes half a minute to three
minutes, and 3 GB.
Usage: bench/tools/law_faults.py [WORD..]   (only faults whose name has one of the words)"""
import os
import shutil
import subprocess
import sys

ROOT = os.path.dirname(os.path.dirname(os.path.dirname(os.path.abspath(__file__))))
COPY = "/tmp/law-faults"
AFTER = "crates/history/specs/After.antt"
KEPT = "crates/history/specs/Kept.antt"
REPLY = "crates/history/specs/Reply.antt"
METADATA = "crates/history/specs/Metadata.antt"
STEPS = "crates/history/specs/Steps.antt"
CASES = "crates/history/proofs/Cases.antt"
ENTRIES = "crates/delivery_law/proofs/Entries.antt"
PUT = "put limit objects kept = evicted limit (others kept.key objects ++ kept ∷ [])"
ALL_PUT = "all_evicted P most (others kept.key xs ++ kept ∷ []) (All-push P (others kept.key xs) kept (All-filter _ P xs all) (new kept refl))"
UNHIT = "unhit (Some start) objects = filter (λ kept. not (hits start.selection kept.key kept.ccid)) objects"

# the name of the fault, the crate whose law is to stop it, the clause that is false with it, and its edits: file, old text, which stands
# there once, and new text
FAULTS = [
    (
        "a log file is without its rows",
        "record_law",
        "KeepsRecord.kept",
        [(AFTER, "  rows = map (λ one. one.row) w.delivering.unfiled;", "  rows = [];")],
    ),
    (
        "cut rows are filed again",
        "record_law",
        "KeepsRecord.whole",
        [(AFTER, "unfiled_after w (pass, Cut moment) (reply.File number) = []", "unfiled_after w (pass, Cut moment) (reply.File number) = w.delivering.unfiled")],
    ),
    (
        "a row is never unfiled",
        "record_law",
        "KeepsRecord.whole",
        [(AFTER, "unfiled_after w entry answer = w.delivering.unfiled ++ new_rows w entry", "unfiled_after w entry answer = w.delivering.unfiled")],
    ),
    (
        "a DropLog drops another file",
        "record_law",
        "KeepsRecord.kept",
        [(AFTER, "filter (λ file. not (file.number == number)) w.controlling.files", "filter (λ file. not (file.number == number + 1)) w.controlling.files")],
    ),
    (
        "a DropLog drops nothing",
        "record_law",
        "KeepsRecord.kept",
        [(AFTER, "filter (λ file. not (file.number == number)) w.controlling.files", "w.controlling.files")],
    ),
    (
        "a Cut takes the place of all files",
        "record_law",
        "KeepsRecord.kept",
        [(AFTER, "files_after w (pass, Cut moment) (reply.File number) = w.controlling.files ++ record {", "files_after w (pass, Cut moment) (reply.File number) = record {")],
    ),
    (
        "a log file is read without its rows",
        "record_law",
        "WasCut.reads",
        [(REPLY, "(file_text (file_head heading file.number file.moment) file.rows)", "(file_text (file_head heading file.number file.moment) [])")],
    ),
    (
        "a Cut of no rows makes a file",
        "record_law",
        "WasCut.some",
        [
            (REPLY, "cut_reply w [] = reply.NothingToCut", "cut_reply w [] = opening w (reply.File (w.counts.filed + 1))"),
            (CASES, "cut_by [] none full file = none", "cut_by [] none full file = opening_cases w P _ full file"),
        ],
    ),
    (
        "a Cut finds nothing to cut where there are rows",
        "record_law",
        "KeepsRecord.nothing",
        [
            (REPLY, "cut_reply w (row ∷ rows) = if length w.controlling.files == w.made.limits.files", "cut_reply w (row ∷ rows) = reply.NothingToCut"),
            (REPLY, "    then reply.Full (length w.controlling.files) else opening w (reply.File (w.counts.filed + 1))", ""),
            (
                CASES,
                "either P (length w.controlling.files == w.made.limits.files) _ _ (full (length w.controlling.files)) (opening_cases w P _ full file)",
                "none",
            ),
        ],
    ),
    (
        "an open delivery that is finished has a row that it is not told of",
        "delivery_law",
        "IsOfOneDelivery.finished",
        [
            (REPLY, "finish_reply w delivery found = if found then reply.Logged (w.counts.logged + 1) else reply.NotOpen delivery", "finish_reply w delivery found = reply.NotOpen delivery"),
            (CASES, "either P (list_any (is_open delivery pass) w.delivering.deliveries) _ _ some none", "none"),
        ],
    ),
    (
        "only empty bodies are kept",
        "kept_law",
        "EndsFetch.may",
        [(KEPT, "    nat_le (length got.body) limit && not (is_newer", "    nat_le (length got.body) 0 && not (is_newer")],
    ),
    (
        "an eviction drops everything",
        "kept_law",
        "MakesRoom.fewest",
        [
            (KEPT, "then kept ∷ objects else evicted most objects", "then kept ∷ objects else []"),
            (ENTRIES, "(sym (cond-false _ (x ∷ xs) (evicted most xs) large)) (all_evicted P most xs (All-tail P x xs all))", "(sym (cond-false _ (x ∷ xs) [] large)) (All-nil P)"),
            (ENTRIES, "(sym (cond-true _ (x ∷ xs) (evicted most xs) fits)) all", "(sym (cond-true _ (x ∷ xs) [] fits)) all"),
        ],
    ),
    (
        "an eviction drops the most recently used first",
        "kept_law",
        "KeepsObjects.in_order",
        [
            (KEPT, PUT, "put limit objects kept = kept ∷ evicted (limit - size_of kept) (others kept.key objects)"),
            (KEPT, "use Rattle.std.specs.Prelude.{ℕ,", "use Rattle.std.specs.Prelude.{ℕ, ◌-◌,"),
            (ENTRIES, ALL_PUT, "All-cons P kept (evicted (most - size_of kept) (others kept.key xs)) (new kept refl) (all_evicted P (most - size_of kept) (others kept.key xs) (All-filter _ P xs all))"),
            (ENTRIES, "use Rattle.std.proofs.Common.{◌≡◌, ℕ,", "use Rattle.std.proofs.Common.{◌≡◌, ℕ, ◌-◌,"),
            (ENTRIES, "kept_content, others, total,", "kept_content, others, size_of, total,"),
        ],
    ),
    (
        "an older fetch replaces a newer one",
        "kept_law",
        "EndsFetch.may",
        [(KEPT, " && not (is_newer fetch (kept_of what.key objects)) && not hit", " && not hit")],
    ),
    (
        "what is kept under a key is never replaced",
        "kept_law",
        "EndsFetch.may",
        [(KEPT, "is_newer fetch (Some kept) = nat_lt fetch kept.fetch", "is_newer fetch (Some kept) = nat_le 0 kept.fetch")],
    ),
    (
        "two objects of one key are kept",
        "kept_law",
        "KeepsObjects.apart",
        [
            (KEPT, "others key objects = filter (λ kept. not (is_of key kept)) objects", "others key objects = objects"),
            (ENTRIES, "kept (All-filter _ P xs all) (new kept refl))", "kept all (new kept refl))"),
        ],
    ),
    (
        "nothing leaves where there is no room",
        "kept_law",
        "KeepsObjects.within",
        [
            (KEPT, PUT, "put limit objects kept = others kept.key objects ++ kept ∷ []"),
            (ENTRIES, ALL_PUT, "All-push P (others kept.key xs) kept (All-filter _ P xs all) (new kept refl)"),
        ],
    ),
    (
        "a hit does not move its object",
        "kept_law",
        "GivesObject.whole",
        [
            (AFTER, "    used (key_at (index_of w.delivering) request.asked.target) w.delivering.kept", "    w.delivering.kept"),
            (ENTRIES, "moved_ones (is_of _) w.delivering.kept (same stays)", "same stays"),
        ],
    ),
    (
        "a start removes everything",
        "kept_law",
        "StartsTrigger.takes",
        [
            (KEPT, UNHIT, "unhit (Some start) objects = []"),
            (ENTRIES, "all_passed P Q (λ kept. not (hits start.selection kept.key kept.ccid)) xs all", "All-nil Q"),
            (ENTRIES, "    (λ kept p passes. each kept p (All-cons (Misses kept) start [] (not-true (hits start.selection kept.key kept.ccid) passes) (All-nil (Misses kept))))", ""),
        ],
    ),
    (
        "a start removes nothing",
        "delivery_law",
        "Fetched.unhit",
        [(KEPT, UNHIT, "unhit (Some start) objects = objects")],
    ),
    (
        "POST is served, and HEAD is not",
        "delivery_law",
        "Forbids",
        [(METADATA, 'bytes_eq method (codes "HEAD")', 'bytes_eq method (codes "POST")')],
    ),
    (
        "each refresh is due",
        "delivery_law",
        "IsFreshAt, where no refresh is due",
        [(REPLY, "next_due period moment None installed = option_and_then (next_after period moment) installed", "next_due period moment None installed = None")],
    ),
    (
        "a refresh is never stale",
        "delivery_law",
        "IsUntouched",
        [
            (REPLY, "fresh_reply w refresh (first_hit w.delivering.starts begun.at tree.resources)", "fresh_reply w refresh None"),
            (CASES, "fresh_by (first_hit w.delivering.starts begun.at tree.resources)", "fresh_by None"),
        ],
    ),
    (
        "an older refresh is installed",
        "history",
        "a lemma below the laws; by reading the_installed_refresh_never_falls",
        [(REPLY, "install_reply installed (Some refresh) = reply.Older refresh", "install_reply installed (Some refresh) = reply.Installed (installed + 1)")],
    ),
    (
        "a failed refresh ends a preposition complete",
        "trigger_law",
        "IsAccountedFor.prepared",
        [(AFTER, "ended_refresh refresh (is_installed answer) w.controlling.triggers", "ended_refresh refresh true w.controlling.triggers")],
    ),
    (
        "a change time is 0",
        "trigger_law",
        "IsAccountedFor.changed",
        [(STEPS, "status = status; mtime = moment }", "status = status; mtime = 0 }")],
    ),
    (
        "an invalidate is complete and has not started",
        "trigger_law",
        "IsAccountedFor.started",
        [(STEPS, "free_step Pending trigger = Starts", "free_step Pending trigger = active_step trigger.job.spec.kind trigger")],
    ),
    (
        "a cancel does nothing",
        "trigger_law",
        "IsCancelled.status_is",
        [(STEPS, "cancelled_from moment Pending trigger = with_status moment Cancelled trigger", "cancelled_from moment Pending trigger = trigger")],
    ),
    (
        "a cut opens nothing",
        "limit_law",
        "opened_in",
        [(AFTER, "opened_by (reply.File number) = 1", "opened_by (reply.File number) = 0")],
    ),
]
# what stands below a law, lowest first: a fault may be refused there already
BELOW = ["history", "delivery_law"]


def copied():
    """A copy of what git knows of the crates, as it stands now; kept from fault to fault, with what was checked."""
    listed = subprocess.run(["git", "ls-files", "-co", "--exclude-standard", "crates", "crates.txt", "HANDLES"], cwd=ROOT, stdout=subprocess.PIPE, text=True, check=True)
    for name in listed.stdout.splitlines():
        if os.path.isfile(f"{ROOT}/{name}"):
            put(name, read(f"{ROOT}/{name}"))


def read(path):
    with open(path, encoding="utf-8") as it:
        return it.read()


def put(name, text):
    """Writes a file of the copy where it has another text."""
    path = f"{COPY}/{name}"
    if not (os.path.isfile(path) and read(path) == text):
        os.makedirs(os.path.dirname(path), exist_ok=True)
        with open(path, "w", encoding="utf-8") as it:
            it.write(text)


def is_proved(crate, log):
    """Whether the crate is proved in the copy. What was printed goes to the log."""
    ran = subprocess.run(["rt", "check"], cwd=f"{COPY}/crates/{crate}", stdout=subprocess.PIPE, stderr=subprocess.STDOUT, text=True, check=False)
    log.write(f"---- {crate}\n{ran.stdout}\n")
    return ran.returncode == 0


def stopped_by(crate, edits, log):
    """The first crate that is refused with these edits, or None."""
    whole = {name: read(f"{ROOT}/{name}") for name, old, new in edits}
    texts = dict(whole)
    for name, old, new in edits:
        if texts[name].count(old) != 1:
            raise SystemExit(f"{name}: stands {texts[name].count(old)} times and not once: {old}")
        texts[name] = texts[name].replace(old, new)
    for name, text in texts.items():
        put(name, text)
    try:
        return next((it for it in dict.fromkeys([*BELOW, crate]) if not is_proved(it, log)), None)
    finally:
        for name, text in whole.items():
            put(name, text)


def main():
    chosen = [it for it in FAULTS if not sys.argv[1:] or any(word in it[0] for word in sys.argv[1:])]
    shutil.rmtree(f"{COPY}/logs", ignore_errors=True)
    os.makedirs(f"{COPY}/logs")
    copied()
    missed = 0
    for name, crate, clause, edits in chosen:
        with open(f"{COPY}/logs/{name.replace(' ', '_')}", "w", encoding="utf-8") as log:
            stop = stopped_by(crate, edits, log)
        missed += stop != crate
        told = f"refused by {stop} ({clause})" if stop == crate else f"refused by {stop}, BEFORE {crate}" if stop else f"NOT STOPPED by {crate}"
        print(f"{name}: {told}", flush=True)
    print(f"{len(chosen)} faults, {missed} not stopped as they are to be; what was printed is in {COPY}/logs")
    return 1 if missed else 0


if __name__ == "__main__":
    sys.exit(main())
