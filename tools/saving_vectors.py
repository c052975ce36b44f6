#!/usr/bin/env python3
"""Judge and generator: a session saved and taken back, reckoned for tools/vectors.py; run by itself, it makes vectors/saving.log.

The session is that of tools/churn_vectors.py; what is kept of it is a copy. A form's length is reckoned from the lists that wait.
"""
import copy
import random
import sys

import logs
import usage
from assignment_vectors import pack_assignment
from churn_vectors import LENGTH, QUEUE, Session, drain, opened, response, update
from name_vectors import Refused

# what a form has besides the store's part, and the refusal of one that is none
FRAME = 111
NO_FORM = 64
SAVE, RESTORE, CHURN = "save", "restore", "churn"


class Kept(Session):
    """A session, and the last copy that was kept of it."""
    kept = None

    def save(self):
        self.kept = copy.deepcopy({name: value for name, value in vars(self).items() if name not in ("kept", "lost")})
        return f"saved {FRAME + QUEUE + sum(LENGTH + len(pack_assignment(waiting)) for waiting in self.queue)}"

    def restore(self):
        if self.kept is None:
            raise Refused(NO_FORM)
        vars(self).update(copy.deepcopy(self.kept), lost=[])
        return "accepted"


def commands():
    """The calls of one session, which starts before it is opened."""
    session = Kept()
    forms = {"open": "nnbbbb", "update": "nb", "response": "nb", "drain": "n", "begin": "n", "invalidate": "", CHURN: "", SAVE: "", RESTORE: ""}
    return {name: (form, getattr(session, name)) for name, form in forms.items()}


COMMANDS = commands()

# ---- the vectors


def by_hand():
    yield "# ==== nothing was saved; a session without a list; the link that began later is gone"
    yield from [RESTORE, opened(), RESTORE, SAVE, logs.line("begin", 2), RESTORE, logs.line("begin", 2), logs.line("begin", 2)]
    yield "# pushes that wait, saved with them: the response of the restored session replays them, from where each reader was"
    yield from [update(2, 3, 0, 1), update(2, 4, 1), SAVE, update(2, 5), RESTORE, response(2, 2, 0), drain(0), SAVE, drain(0), drain(0), drain(5)]
    yield from [RESTORE, drain(0), drain(0), drain(5), RESTORE, RESTORE, drain(5)]
    yield "# the list held and the floor: what came behind the save is gone, what came before stays refused"
    yield from [update(2, 6, 2, 3), SAVE, update(2, 9, 4), CHURN, RESTORE, CHURN, update(2, 8, 3), RESTORE, update(2, 5), "invalidate", response(2, 5)]
    yield from [response(2, 6, 1), RESTORE, logs.line("begin", 7), response(7, 5), response(7, 6), SAVE]
    yield "# another session is opened over it, and the one before taken back"
    yield from [opened("other"), update(1, 1, 5), RESTORE, update(7, 7, 6), drain(0)]


def at_random(rng):
    yield "# ==== calls at random, saved and taken back in between"
    link, epoch = 20, 10
    kept = link, epoch
    yield from [logs.line("begin", link), SAVE]
    for _ in range(400):
        ids = rng.sample(range(5), rng.randrange(4))
        epoch = max(1, epoch + rng.choice((-2, 0, 1, 1, 2)))
        kind = rng.random()
        if kind < 0.15:
            kept = link, epoch
            yield SAVE
        elif kind < 0.25:
            link, epoch = kept
            yield RESTORE
        elif kind < 0.32:
            link += rng.randrange(3)
            yield logs.line("begin", link)
        elif kind < 0.45:
            yield response(link, epoch, *ids)
        elif kind < 0.65:
            yield drain(rng.randrange(9))
        else:
            yield update(link, epoch, *ids)


def made():
    head = "# A session saved and taken back, as a log of station, written and reckoned by tools/saving_vectors.py."
    return logs.made("saving", [head, *by_hand(), *at_random(random.Random("saving vectors"))])


if __name__ == "__main__":
    sys.exit(usage.generate(__doc__, made))
