#!/usr/bin/env python3
"""agent.py SOCKET KIND: asks the person at the terminal each question that the service has for this kind."""
import os
import select
import sys

import privilege


def dialog(agent, question):
    """True for a yes, None where nobody waits for the answer any more."""
    key = question.key
    print(f"May {key.client} use {key.privilege} for user {key.user}? [y/n] ", end="", flush=True)
    while not agent.withdrawn(question):
        ready, _, _ = select.select([0, agent], [], [])
        if 0 in ready:
            return os.read(0, 64).startswith(b"y")
    return None


try:
    with privilege.Agent(int(sys.argv[2]), sys.argv[1]) as agent:
        while True:
            question = agent.next()
            answer = dialog(agent, question)
            print({None: "(nobody waits any more)", True: "yes", False: "no"}[answer], flush=True)
            if answer is not None:
                agent.answer(question, answer)
except privilege.PrivilegeError as error:
    print(f"agent: {error}", file=sys.stderr)
    sys.exit(0 if error.error == privilege.Error.ENDED else 1)
