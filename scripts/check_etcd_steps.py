#!/usr/bin/env python3
"""Tries every interleaving of two instances over a journal in etcd, within bounds, and looks for a fault: an answered line that is lost or stands twice, a
list that is none, a leader that shows another list. A request that was sent may come at any later time and any number of times, or never; its answer may be
lost; a lease may end and an instance may fall at any moment; a line may be longer than a block; the journal is renewed once.

The table of steps, `passes` and `done`, is that of crates/etcd_laws/specs/Stores.antt: change one with the other. What the laws there say holds over every
list of steps, whoever asks; what is tried here also knows who sends what, and when.

A row is a model and what must come of it. A model that lacks what it needs, or does what it must not, has to show a fault.
usage: scripts/check_etcd_steps.py [WORD]        rows that have the word; each fault's run is printed with -v"""
import sys
import time
from collections import namedtuple

# ---- the store

Store = namedtuple("Store", "revision ended leader epoch blocks")  # leader: (term, lease) or None; blocks: ((epoch, number), created, piece) in order
Claim = namedtuple("Claim", "term lease")
Write = namedtuple("Write", "term going epoch number piece")
Remove = namedtuple("Remove", "term going epoch number created")
Switch = namedtuple("Switch", "term going")
Forget = namedtuple("Forget", "term epoch")


def block_at(store, epoch, number):
    for place, created, piece in store.blocks:
        if place == (epoch, number):
            return created, piece
    return None


def created_at(store, epoch, number):
    block = block_at(store, epoch, number)
    return block[0] if block else 0


def leads(store, term):
    return store.leader is not None and store.leader[0] == term


def passes(store, r, lacks):
    """whether all that a request compares holds; what a model lacks is not compared"""
    if isinstance(r, Claim):
        return store.leader is None and ("lease" in lacks or r.lease not in store.ended)
    fenced = leads(store, r.term) or "leader" in lacks and isinstance(r, Write)
    if isinstance(r, Write):
        free = created_at(store, r.epoch, r.number) == 0
        return fenced and (store.epoch == r.going or "epoch" in lacks) and (free or "place" in lacks)
    if isinstance(r, Remove):
        seen = created_at(store, r.epoch, r.number) == r.created
        return fenced and store.epoch == r.going and (seen or ("cut" if r.epoch == r.going else "clean") in lacks)
    if isinstance(r, Switch):
        return fenced and store.epoch == r.going
    return fenced


def done(store, r):
    revision = store.revision + 1
    if isinstance(r, Claim):
        return store._replace(revision=revision, leader=(r.term, r.lease))
    if isinstance(r, Write):
        others = [b for b in store.blocks if b[0] != (r.epoch, r.number)]
        created = created_at(store, r.epoch, r.number) or store.revision
        return store._replace(revision=revision, blocks=tuple(sorted(others + [((r.epoch, r.number), created, r.piece)])))
    if isinstance(r, Switch):
        return store._replace(revision=revision, epoch=r.going + 1)
    first = r.number if isinstance(r, Remove) else 0
    return store._replace(revision=revision, blocks=tuple(b for b in store.blocks if not (b[0][0] == r.epoch and b[0][1] >= first)))


def after(store, r, lacks):
    """the store, and whether the request succeeded"""
    if not passes(store, r, lacks):
        return store, False
    new = done(store, r)
    return (store, True) if new.blocks == store.blocks and isinstance(r, (Write, Remove, Forget)) else (new, True)


def lease_ends(store, lease):
    leader = None if store.leader and store.leader[1] == lease else store.leader
    return store._replace(revision=store.revision + 1, ended=store.ended | {lease}, leader=leader)


# ---- what stands in it: pieces are ('line', token), ('begin', token) and ('end', token) of a long line, ('first begin', tokens) and ('first end', tokens)


class Fault(Exception):
    pass


def read(store):
    """the tokens of the whole lines of the epoch that goes on, how many blocks it has, and the number and revision of the block where a torn end begins"""
    tokens, torn, half = None, None, None
    blocks = [b for b in store.blocks if b[0][0] == store.epoch]
    for number, ((_, place), created, (kind, said)) in enumerate(blocks):
        if place != number:
            raise Fault("a block is missing")
        if kind.endswith("begin"):
            if torn or (kind == "begin") == (tokens is None):
                raise Fault("a line within another")
            torn, half = (place, created), said
        elif kind == "line":
            if torn or tokens is None:
                raise Fault("a line within another")
            tokens = tokens + (said,)
        else:
            if half != said:
                raise Fault("a line of two")
            tokens = said if kind == "first end" else tokens + (said,)
            torn, half = None, None
    if tokens is None:
        raise Fault("no first line")
    return tokens, len(blocks), torn


# ---- the instances

Standby = namedtuple("Standby", "")
Claiming = namedtuple("Claiming", "term store")  # store: that of the moment, for who reads before the claim
Leading = namedtuple("Leading", "term epoch blocks kept to_write waits_for stage lines")  # stage: of a renewal, None where there is none
World = namedtuple("World", "store sent instances answered terms")
Model = namedtuple("Model", "terms lines lacks does")


def is_settled(store, r, succeeded):
    """whether the answer tells that the request is done: it succeeded, or what it read where it failed says that an earlier copy did"""
    if succeeded:
        return True
    if isinstance(r, Forget) or not leads(store, r.term):
        return False
    if isinstance(r, Claim):
        return True
    if isinstance(r, Write):
        block = block_at(store, r.epoch, r.number)
        return block is not None and block[1] == r.piece
    if isinstance(r, Remove):
        return created_at(store, r.epoch, r.number) != r.created
    return store.epoch == r.going + 1


def with_instance(world, i, instance, **more):
    instances = world.instances[:i] + (instance,) + world.instances[i + 1 :]
    return world._replace(instances=instances, **more)


def sends(world, i, instance, r):
    return with_instance(world, i, instance._replace(waits_for=r), sent=world.sent | {r})


def begins(model, world, i, instance):
    """what a leader that waits for nothing may do"""
    term, epoch, kept, stage, lines = instance.term, instance.epoch, instance.kept, instance.stage, instance.lines
    if instance.to_write:
        yield "sends a block", sends(world, i, instance, Write(term, epoch, epoch, instance.blocks, instance.to_write[0]))
    elif stage is None:
        if lines < model.lines:
            token = f"{term}.{lines}"
            yield "takes a line", with_instance(world, i, instance._replace(to_write=(("line", token),), lines=lines + 1))
            if lines == 0:
                long_line = (("begin", token), ("end", token))
                yield "takes a long line", with_instance(world, i, instance._replace(to_write=long_line, lines=lines + 1))
        if epoch < 2:
            left = created_at(world.store, epoch + 1, 0)
            first = Write(term, epoch, epoch + 1, 0, ("first begin", kept))
            cleans = Remove(term, epoch, epoch + 1, 0, left)
            yield "renews", sends(world, i, instance._replace(stage="cleaned" if left else "first"), cleans if left else first)
    elif stage == "cleaned":
        yield "writes the first line", sends(world, i, instance._replace(stage="first"), Write(term, epoch, epoch + 1, 0, ("first begin", kept)))
    elif stage == "first":
        yield "writes its end", sends(world, i, instance._replace(stage="second"), Write(term, epoch, epoch + 1, 1, ("first end", kept)))
    elif stage == "second":
        yield "switches", sends(world, i, instance._replace(stage="switched"), Switch(term, epoch))
    elif stage == "switched":
        yield "forgets", sends(world, i, instance._replace(epoch=epoch + 1, blocks=2, stage="forgot"), Forget(term, epoch))
    else:
        yield "has renewed", with_instance(world, i, instance._replace(stage=None))


def wrote(world, instance):
    """the leader and the answers behind a block that is kept, or is taken for kept"""
    (kind, token), *rest = instance.to_write
    kept, answered = instance.kept, world.answered
    if kind != "begin":
        answered = answered | {(len(kept), token)}
        kept = kept + (token,)
    return instance._replace(blocks=instance.blocks + 1, kept=kept, to_write=tuple(rest), waits_for=None), answered


def waits(model, world, i, instance):
    """the request that a leader waits for comes, and its answer comes back"""
    r = instance.waits_for
    store, succeeded = after(world.store, r, model.lacks)
    is_append = isinstance(r, Write) and r.epoch == r.going
    if is_settled(store, r, succeeded):
        new, answered = wrote(world, instance) if is_append else (instance._replace(waits_for=None), world.answered)
        yield f"is answered: {r}", with_instance(world, i, new, store=store, answered=answered)
    else:
        yield f"is deposed: {r}", with_instance(world, i, Standby(), store=store)
    if "gives up" in model.does and is_append:
        new, answered = wrote(world, instance)
        yield f"takes it for done: {r}", with_instance(world, i, new, answered=answered)


def claims(model, world, i, instance):
    """the claim comes, its answer comes back, and who leads reads the journal"""
    claim = Claim(instance.term, instance.term)
    store, succeeded = after(world.store, claim, model.lacks)
    if not is_settled(store, claim, succeeded):
        yield "does not lead", with_instance(world, i, Standby(), store=store)
        return
    yield "leads", with_instance(world, i, reads(instance.term, instance.store or store), store=store)


def reads(term, store):
    kept, blocks, torn = read(store)
    leading = Leading(term, store.epoch, blocks, kept, (), None, None, 0)
    if not torn:
        return leading
    return leading._replace(blocks=torn[0], waits_for=Remove(term, store.epoch, store.epoch, *torn))


def steps(model, world):
    if world.store.leader:
        yield "the lease ends", world._replace(store=lease_ends(world.store, world.store.leader[1]))
    for i, instance in enumerate(world.instances):
        name = f"instance {i}"
        if isinstance(instance, Standby):
            if world.store.leader is None and world.terms < model.terms:
                term = world.terms + 1
                claiming = Claiming(term, world.store if "reads before" in model.does else None)
                yield f"{name} claims", with_instance(world, i, claiming, sent=world.sent | {Claim(term, term)}, terms=term)
            continue
        yield f"{name} falls", with_instance(world, i, Standby())
        if isinstance(instance, Claiming):
            found = claims(model, world, i, instance)
        elif instance.waits_for is None:
            found = begins(model, world, i, instance)
        else:
            found = waits(model, world, i, instance)
        for what, new in found:
            late = new.instances[i].waits_for if isinstance(new.instances[i], Leading) else None
            yield f"{name} {what}", new._replace(sent=new.sent | {late}) if late else new
    for r in world.sent:
        store, _ = after(world.store, r, model.lacks)
        if store != world.store:
            yield f"a copy comes: {r}", world._replace(store=store)


# ---- faults


def look_for_fault(world):
    tokens, _, _ = read(world.store)
    if len(set(tokens)) != len(tokens):
        raise Fault("a line stands twice")
    for place, token in world.answered:
        if place >= len(tokens) or tokens[place] != token:
            raise Fault(f"an answered line is lost: {token} at {place} of {tokens}")
    for instance in world.instances:
        if isinstance(instance, Leading) and leads(world.store, instance.term) and instance.stage is None:
            if tokens[: len(instance.kept)] != instance.kept or len(tokens) > len(instance.kept) + 1:
                raise Fault(f"the leader shows {instance.kept} where {tokens} stands")


FIRST_BLOCKS = (((1, 0), 1, ("first begin", ())), ((1, 1), 2, ("first end", ())))
FIRST = World(Store(3, frozenset(), None, 1, FIRST_BLOCKS), frozenset(), (Standby(), Standby()), frozenset(), 0)


def search(model):
    """how many worlds there are, and the fault that is nearest with the run that leads there"""
    came_by, ahead = {FIRST: None}, [FIRST]
    while ahead:
        behind, ahead = ahead, []
        for world in behind:
            name = None
            try:
                for name, new in steps(model, world):
                    if new not in came_by:
                        came_by[new] = (world, name)
                        look_for_fault(new)
                        ahead.append(new)
            except Fault as fault:
                return len(came_by), str(fault), run_to(came_by, new if new in came_by else world)
    return len(came_by), None, []


def run_to(came_by, world):
    run = []
    while came_by[world]:
        world, name = came_by[world]
        run.append(name)
    return list(reversed(run))


# ---- the rows

NONE, SOME = "no fault", "a fault"
ROWS = [
    ("two terms of one line", Model(2, 1, (), ()), NONE),
    ("a write does not compare whether its place is free", Model(2, 1, ("place",), ()), NONE),
    ("a write does not compare the epoch", Model(2, 1, ("epoch",), ()), NONE),
    ("a write does not compare the leader", Model(2, 1, ("leader",), ()), SOME),
    ("a torn end is cut without naming the block that was seen", Model(2, 1, ("cut",), ()), SOME),
    ("an unfinished epoch is removed without naming the block that was seen", Model(2, 1, ("clean",), ()), SOME),
    ("a claim leads though its lease ended", Model(2, 1, ("lease",), ()), SOME),
    ("a lost answer is taken for done", Model(2, 1, (), ("gives up",)), SOME),
    ("the journal is read before the claim", Model(2, 1, (), ("reads before",)), SOME),
    ("two terms of two lines", Model(2, 2, (), ()), NONE),
]


def main(words):
    verbose, words = "-v" in words, [w for w in words if w != "-v"]
    passed = failed = 0
    for name, model, wanted in ROWS:
        if words and words[0] not in name:
            continue
        began = time.time()
        worlds, fault, run = search(model)
        found = SOME if fault else NONE
        passed, failed = (passed + 1, failed) if found == wanted else (passed, failed + 1)
        print(f"{'ok' if found == wanted else 'FAILED'}: {name}: {fault or NONE} in {worlds} worlds, {time.time() - began:.0f} s", flush=True)
        if fault and (verbose or found != wanted):
            print("".join(f"    {step}\n" for step in run), end="")
    print(f"{passed} passed, {failed} failed")
    return 1 if failed else 0


if __name__ == "__main__":
    sys.exit(main(sys.argv[1:]))
