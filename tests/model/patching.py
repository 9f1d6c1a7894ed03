"""What a plan of writes has to do, and how many slots it needs, worked out slowly from the meaning alone."""
import functools

from tcam_razor import memories


def amiss(old, new, answers):
    """The numbers of writes after which a header is answered neither as before nor as behind all of them, or as before again."""
    turned = False
    for number, answer in enumerate(answers):
        is_due = turned or number == len(answers) - 1
        if answer != new and (is_due or answer != old):
            yield number
        turned = turned or answer != old


def alike(entries, others):
    """Whether the entries, or what slots hold, have the same words and decisions."""
    left, right = ([each and (each.fields, each.decision) for each in side] for side in (entries, others))
    return left == right


def fault(held, entries, writes, headers):
    """What is wrong with writes that are to lead from what slots hold to these entries, or nothing."""
    states = [memories.entries_in(memories.after(held, writes[:count])) for count in range(len(writes) + 1)]
    for header in headers:
        answers = [memories.answer(state, header) for state in states]
        for number in amiss(answers[0], memories.answer(entries, header), answers):
            return f"after {number} writes {header} gets {answers[number] or 'no decision'}"
    if not alike(states[-1], entries):
        return "the slots hold another table behind the last write"
    return "" if len(writes) <= most_writes(len(held), len(states[0]), len(entries)) else f"{len(writes)} writes"


def most_writes(slots, old, new):
    """How many writes a plan may have from so many entries to so many."""
    return old + new if old + new <= slots else 3 * old + new


def least_slots(old, new):
    """The least number of slots with room for both lists of entries in their order, where two of one word may share a slot."""

    @functools.lru_cache(None)
    def least(at, of_new):
        if at == len(old) or of_new == len(new):
            return len(old) - at + len(new) - of_new
        ways = [least(at + 1, of_new), least(at, of_new + 1)]
        return 1 + min(ways + [least(at + 1, of_new + 1)] * (old[at].fields == new[of_new].fields))

    return least(0, 0)


def even_slots(entries, slots):
    """What so many slots hold where a table is placed in them."""
    held = [None] * slots
    for at, entry in enumerate(entries):
        held[(2 * at + 1) * slots // (2 * len(entries))] = entry
    return held
