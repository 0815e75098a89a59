#!/usr/bin/env python3
"""launcher.py [SOCKET]: reads lines CLIENT USER PRIVILEGE, and says of each program whether it may start. Answers are
kept as long as they hold."""
import sys

import privilege

with privilege.Client(*sys.argv[1:2], seconds=5, entries=256) as service:
    for line in sys.stdin:
        client, user, name = line.split()
        try:
            verdict = service.check(client, "session1", user, name)
            print("start" if verdict.allowed else "no", f"{client}: commit {verdict.commit}", flush=True)
        except privilege.PrivilegeError as error:
            # Also where nobody was asked, or gave no answer: it is asked again when the user tries again.
            print(f"not now {client}: {error}", flush=True)
