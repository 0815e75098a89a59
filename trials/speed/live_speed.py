#!/usr/bin/env python3
"""live_speed.py PEER [WORD..]: times what a check of a seat and the publication of a state cost. Takes two minutes, and the
time of a first build of `live_desk`, `line_script` and the crates below them, which is many minutes where nothing of them
is kept. Words, as `seats`, choose what is timed, of `check`, `seats` and `publish`.

The program in `live_speed.rt.txt`, over the state of a device with 1,000 applications (`PEER script 1000`) and over one of
65,536 policies in the root bucket (`PEER flat 65536`). Prints
- `check`: the nanoseconds of a check by a seat and by an index, and their quotient (at most 1.3 is wanted);
- `seats`: how many times as much four seats check on threads of their own as one does, while a state is published every
  tenth of a second (3.2 is wanted, on four processors where nothing else is at work);
- `publish`: the milliseconds of a publication of the 65,536 policies, beside those that the program PEER takes for a copy
  of them (`PEER serve DIR 1 SCRIPT 1`: it copies and publishes after each sleep of a millisecond; its time is that of its
  processor, over the number of its sleeps), and their quotient (at most 3 is wanted).
Ends with status 1 where one is not as wanted. Needs `rt`, and Linux for `publish`."""

import pathlib
import re
import subprocess
import sys
import tempfile
import time

from trial_crate import built

USES = ["cynara_keys", "bucket_eval", "desk_state", "line_script", "link_ports", "state_list", "live_desk", "anyhow"]
# That a seat may go to another thread.
ANSWERS = """use denote.RattleType.{RattleType}
use denote.Param.Send.{IsSend, IsSync, sendable}
use mir.Syntax.{given}
use Rattle.state_list.specs.declared.rules.Naming.{Ghosts}
use Rattle.state_list.specs.contracts.rules.Events as Events
use Rattle.live_desk.specs.contracts.seats.Seat as Seat
use Rattle.live_desk.proofs.Sent as live
use Rattle.live_speed.proofs.timed.Goals as goal

seat : (J : RattleType) (naming : Ghosts J.Denot) (events : Ghosts (Events.the_row J).Denot)
    → IsSend J → IsSync J → IsSend (Seat.the_row J naming events)
seat J naming events send sync = live.seat_row_send J naming (given 0) events send sync

pub by_one-done-requires-send-C : goal.by_one-done-requires-send-C
by_one-done-requires-send-C g c κs within = search (sendable, seat) depth 20

pub by_four-done-requires-send-C : goal.by_four-done-requires-send-C
by_four-done-requires-send-C g c κs within = search (sendable, seat) depth 20
"""
# Which list the published states are, and which the roll's log.
PICKS = """use Rattle.state_list.specs.Opening.{book_of}
use Rattle.live_speed.proofs.main.Given as goal

abbrev pub ghosts-over_list : goal.ghosts-over_list
ghosts-over_list g a = record { book = book_of a.opened; events = book_of a.happened }
"""
RUNS = 5
ROUNDS = 50
TENTHS = 30
PUBLICATIONS = 20
SECONDS = 4


def numbers(program, words, script):
    """What the program prints."""
    done = subprocess.run([program, *map(str, words)], input=script, stdout=subprocess.PIPE, check=True)
    return [int(word) for word in done.stdout.split()]


def check(program, script, name):
    count, index, seat, by_index, by_seat = numbers(program, ["check", ROUNDS], script)
    if by_index != by_seat:
        sys.exit(f"the index allows {by_index} checks, and the seat {by_seat}")
    print(f"{name}: a check takes {seat / count:.0f} ns by a seat, {index / count:.0f} by an index, quotient {seat / index:.2f}")
    return seat / index <= 1.3


def seats(program, script, name):
    best = {1: 0, 4: 0}
    for _ in range(RUNS):
        for count in best:
            made, _, nanos = numbers(program, ["seats", count, TENTHS], script)
            best[count] = max(best[count], made / nanos * 1e9)
    quotient = best[4] / best[1]
    print(f"{name}: four seats check {best[4]:,.0f} times a second, one {best[1]:,.0f}, quotient {quotient:.2f}")
    return quotient >= 3.2


def seen(process):
    """The nanoseconds that the first thread had a processor, and how often it slept."""
    here = pathlib.Path(f"/proc/{process}")
    nanos = int((here / "schedstat").read_text().split()[0])
    return nanos, int(re.search(r"^voluntary_ctxt_switches:\s+(\d+)", (here / "status").read_text(), re.M)[1])


def copying(peer, scratch, script):
    """The nanoseconds that the peer takes for a publication."""
    (scratch / "script").write_bytes(script)
    with subprocess.Popen([peer, "serve", scratch, "1", scratch / "script", "1"]) as serving:
        while not (scratch / "client.socket").exists():
            time.sleep(0.05)
        time.sleep(1)
        nanos, sleeps = seen(serving.pid)
        time.sleep(SECONDS)
        later, more = seen(serving.pid)
        serving.kill()
    return (later - nanos) / (more - sleeps)


def publish(program, script, peer, scratch):
    prepared, published = numbers(program, ["publish", PUBLICATIONS], script)
    copied = copying(peer, scratch, script)
    own = prepared + published
    print(
        f"65,536 policies: a publication takes {own / 1e6:.1f} ms, {published / 1e6:.1f} of them behind the making, "
        f"the peer's {copied / 1e6:.1f} ms, quotient {own / copied:.2f}"
    )
    return own / copied <= 3


def main():
    if len(sys.argv) < 2:
        sys.exit(__doc__)
    peer, asked = sys.argv[1], sys.argv[2:] or ["check", "seats", "publish"]
    device = subprocess.run([peer, "script", "1000"], stdout=subprocess.PIPE, check=True).stdout
    flat = subprocess.run([peer, "flat", "65536"], stdout=subprocess.PIPE, check=True).stdout
    with tempfile.TemporaryDirectory() as name:
        scratch = pathlib.Path(name)
        program = built(scratch, "live_speed", USES, {"timed": ANSWERS}, {"main": PICKS})
        kept = True
        for script, of in (device, "a device"), (flat, "65,536 policies"):
            if "check" in asked:
                kept &= check(program, script, of)
            if "seats" in asked:
                kept &= seats(program, script, of)
        if "publish" in asked:
            kept &= publish(program, flat, peer, scratch)
    sys.exit(not kept)


if __name__ == "__main__":
    main()
