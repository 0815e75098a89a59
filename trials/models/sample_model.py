"""What `sample N` answers, by the models of scripts and of a device: `trials/try sample_model N`."""

import sys

import models

USERS = (5001, 5002, 5003, 5004)
OPENING = ["layout", "user 5001 system", "user 5002 admin", "user 5003 normal", "user 5004 guest"]


def commands_of(count):
    """The commands of the generated script of so many applications."""
    installs = [f"install pkg{app // 2} - app{app} * p{app % 7} q{app % 5}" for app in range(count)]
    denials = [f"set ADMIN User::Pkg::pkg{app // 2} 5004 p{app % 7} deny" for app in range(0, count, 3)]
    return OPENING + installs + denials


def questions_of(count):
    return [f"check User::Pkg::pkg{app // 2} {user} p{app % 7}" for app in range(count) for user in USERS]


def sample(count):
    """The five lines of the answer."""
    commands, questions = commands_of(count), questions_of(count)
    script = "".join(line + "\n" for line in commands + questions).encode()
    answers = models.local(script)[0].decode().splitlines()
    accepted = sum(answer.startswith("ok ") for answer in answers[: len(commands)])
    decided = [answer.split()[0] for answer in answers[len(commands) :]]
    return (
        f"sample {count}\ncommits {accepted}\nchecks {len(decided)}\n"
        f"allow {decided.count('allow')}\ndeny {decided.count('deny')}\n"
    )


if __name__ == "__main__":
    sys.stdout.write(sample(int(sys.argv[1])))
