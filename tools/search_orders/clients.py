"""Each step that may come next: those of writers, readers and openers, and what happens by itself.

No step has to come. So a client that dies between any two steps is one that takes no step more. Each step is one
moment at the server or at the database. A client that is slow, or whose words arrive late, takes its step late.
"""
from database import begin, committed, end, fence, is_running, mark, open_life, with_tx
from rules import Rules
from server import How, Session, give_lease, lose_value, open_server, over, quarantine, release, restart
from server import set_value, with_item
from setups import Write
from world import Model, Opener, Reader, State, Steps, Writer


def steps(model: Model, state: State) -> Steps:
    """All that may come next, each with the state that it leaves."""
    for i, writer in enumerate(state.writers):
        if writer.session is None:
            yield from begins(model, state, i)
        else:
            yield from writes(model, state, i, writer, writer.session)
            yield from copies(model, state, i, writer, writer.session)
            yield from fences(model, state, i, writer.session)
        yield from transaction_moves(model, state, i)
    for j in range(len(state.readers)):
        yield from reads(model, state, j)
    for k in range(len(state.openers)):
        yield from opens(model, state, k)
    yield from server_moves(model, state)


def with_writer(state: State, i: int, writer: Writer) -> State:
    return state._replace(writers=state.writers[:i] + (writer,) + state.writers[i + 1 :])


# ---- writers ----

RELEASED: dict[How, str] = {
    "keep": "and keeps its value",
    "drop": "and drops its value",
    "put": "and puts its own value",
    "shift": "and shifts its value",
}


def begins(model: Model, state: State, i: int) -> Steps:
    """A session of the server's life. No number comes twice in one life."""
    session = Session(state.server.life, model.setup.numbers[i])
    if state.server.life and all(it.session != session for it in state.writers):
        yield f"w{i} begins a session", with_writer(state, i, state.writers[i]._replace(session=session))


def writes(model: Model, state: State, i: int, writer: Writer, session: Session) -> Steps:
    """The steps of a writer that has begun."""
    if writer.end == "unknown":
        yield from asks(model, state, i, writer, session)
        yield from transacts(model, state, i, writer, session)
        yield from learns(state, i, writer)
    yield from releases(model, state, i, writer, session)
    if writer.end == "committed" and not model.rules.quarantine_first:
        yield from deletes(model, state, i, writer)


def keys_to_ask(model: Model, i: int) -> int:
    """So many of its keys the writer quarantines."""
    if not model.rules.quarantine_first:
        return 0
    return len(model.setup.writers[i]) - (0 if model.rules.every_key else 1)


def asks(model: Model, state: State, i: int, writer: Writer, session: Session) -> Steps:
    """A quarantine of the next key: at any time before COMMIT, one to refresh before the transaction begins."""
    tx = state.database.txs[i]
    if writer.asked == keys_to_ask(model, i) or tx.state not in ("none", "open"):
        return
    write = model.setup.writers[i][writer.asked]
    server = quarantine(state.server, write.key, session, write.how, model.rules)
    asked = writer._replace(asked=writer.asked + 1)
    if server is None:
        yield f"w{i} is refused a quarantine of key {write.key}", gives_up(state, i, asked)
    else:
        yield f"w{i} quarantines key {write.key}", with_writer(state, i, asked)._replace(server=server)


def gives_up(state: State, i: int, writer: Writer) -> State:
    """Rolls back, where anything has begun, and knows it."""
    database = end(state.database, i, "rolled back")
    return with_writer(state, i, writer._replace(end="rolled back"))._replace(database=database)


def transacts(model: Model, state: State, i: int, writer: Writer, session: Session) -> Steps:
    """What the writer says to the database: it begins, marks, and sends COMMIT, or rolls back before that."""
    rules, tx = model.rules, state.database.txs[i]
    has_all = writer.asked == keys_to_ask(model, i)
    if tx.state == "none":
        later = model.setup.writers[i][writer.asked : keys_to_ask(model, i)]
        if not rules.snapshot_behind or all(write.how == "invalidate" for write in later):
            yield f"w{i} begins its transaction", state._replace(database=begin(state.database, i))
    if tx.state == "open" and not tx.marked and rules.mark:
        marked = mark(state.database, i, session, rules)
        if marked is None:
            yield f"w{i}'s mark is refused, and it rolls back", gives_up(state, i, writer)
        else:
            yield f"w{i} marks its transaction", state._replace(database=marked)
    if tx.state == "open" and has_all and (tx.marked or not rules.mark):
        yield f"w{i} sends COMMIT", state._replace(database=with_tx(state.database, i, tx._replace(state="sent")))
    if tx.state in ("none", "open"):
        yield f"w{i} rolls back", gives_up(state, i, writer)


def learns(state: State, i: int, writer: Writer) -> Steps:
    """The reply to COMMIT or to another statement, or, where it was lost, what a fence of the own session says."""
    tx = state.database.txs[i]
    if tx.state == "committed":
        yield f"w{i} learns that it has committed", with_writer(state, i, writer._replace(end="committed"))
    elif tx.state == "rolled back":
        yield f"w{i} learns that it was rolled back", with_writer(state, i, writer._replace(end="rolled back"))


def how_released(model: Model, writer: Writer, write: Write) -> How:
    """By what the writer knows of its end, and by what it does to this key."""
    if writer.end == "rolled back" or (writer.end == "committed" and not model.rules.keep_only_rolled_back):
        return "keep"
    return "put" if write.how == "refresh" else "shift" if write.how == "shift" else "drop"


def put_value(model: Model, state: State, i: int, write: Write) -> int:
    """What a writer hands in with a release: what it saw in its own transaction, or the bit that it shifts by."""
    own = 1 << i
    if write.how == "shift":
        return own
    return (state.database.txs[i].seen | own) & model.touching[write.key]


def releases(model: Model, state: State, i: int, writer: Writer, session: Session) -> Steps:
    """The next key of those that it asked for, once it knows its end. What is Gone is released as well."""
    if writer.released >= writer.asked:
        return
    rules, tx = model.rules, state.database.txs[i]
    write = model.setup.writers[i][writer.released]
    how = how_released(model, writer, write)
    words = f"w{i} releases key {write.key} {RELEASED[how]}"
    if writer.end == "unknown":
        if tx.state == "open" and tx.marked and not rules.reply_first:
            words += " before its COMMIT"
        elif tx.state == "sent" and not rules.lost_reply_drops_nothing:
            how, words = "drop", f"w{i} loses the reply to COMMIT and drops key {write.key}"
        elif tx.state == "sent" and not rules.lost_reply_keeps_nothing:
            how, words = "keep", f"w{i} loses the reply to COMMIT and frees key {write.key}"
        else:
            return
    server = release(state.server, write.key, session, how, put_value(model, state, i, write), rules) or state.server
    yield words, with_writer(state, i, writer._replace(released=writer.released + 1))._replace(server=server)


def deletes(model: Model, state: State, i: int, writer: Writer) -> Steps:
    """Without quarantines: the plain delete of the next key, behind the commit."""
    if writer.released < len(model.setup.writers[i]):
        key = model.setup.writers[i][writer.released].key
        after = with_writer(state, i, writer._replace(released=writer.released + 1))
        yield f"w{i} deletes key {key}", after._replace(server=lose_value(state.server, key))


def copies(model: Model, state: State, i: int, writer: Writer, session: Session) -> Steps:
    """A word to the server which was said before arrives once more, however late."""
    if not state.copies:
        return
    rules, left = model.rules, state._replace(copies=state.copies - 1)
    for write in model.setup.writers[i][: writer.asked]:
        if write.how == "invalidate" or writer.end == "rolled back" or not rules.refresh_asked_once:
            server = quarantine(state.server, write.key, session, write.how, rules)
            if server is not None and server != state.server:
                words = f"w{i}'s request to quarantine key {write.key} arrives once more, and is granted"
                yield words, left._replace(server=server)
    for write in model.setup.writers[i][: writer.released]:
        how = how_released(model, writer, write)
        server = release(state.server, write.key, session, how, put_value(model, state, i, write), rules)
        if server is not None:
            words = f"w{i}'s release of key {write.key} {RELEASED[how]} arrives once more"
            yield words, left._replace(server=server)


def fences(model: Model, state: State, i: int, session: Session) -> Steps:
    """Somebody meets an overdue quarantine of the session, and fences it. A deadline may pass at any moment, so this
    may come at any moment. Behind it the server may hear at any time, and again, that the session is over."""
    if session not in state.over:
        fenced = fence(state.database, i, session, model.rules)
        if fenced is not None:
            known = state._replace(database=fenced, over=state.over | {session})
            yield f"w{i}'s session is overdue: {how_fenced(model.rules)}", known
        return
    for key in range(len(state.server.items)):
        server = over(state.server, key, session, model.rules)
        if server is not None:
            yield f"the server hears that w{i}'s session is over: key {key} is free", state._replace(server=server)


def how_fenced(rules: Rules) -> str:
    """What happens to an overdue session, in words."""
    if not rules.fence:
        return "it is taken to be over"
    return "somebody fences it" if rules.timeout_is_nothing else "its fence waits too long, and is taken for done"


def transaction_moves(model: Model, state: State, i: int) -> Steps:
    """What the database does by itself: a COMMIT that was sent takes effect; a transaction is rolled back, by a crash
    or a clash, or since its client is gone."""
    tx = state.database.txs[i]
    if tx.state == "sent":
        yield f"the database commits w{i}", state._replace(database=end(state.database, i, "committed"))
    if is_running(tx):
        yield f"the database rolls w{i} back", state._replace(database=end(state.database, i, "rolled back"))
    if tx.state == "committed" and state.writers[i].end == "committed" and not model.rules.durable:
        yield f"the database loses w{i}'s commit", state._replace(database=end(state.database, i, "rolled back"))


# ---- readers ----


def reads(model: Model, state: State, j: int) -> Steps:
    """Takes a lease, asks the database, and sets the answer; another round where some are left."""
    reader, key = state.readers[j], model.setup.readers[j]
    if not reader.rounds:
        return
    if reader.token is None and (model.rules.lease_first or reader.value is not None):
        leased = give_lease(state.server, key, model.rules)
        if leased:
            words, after = f"r{j} is given a lease on key {key}", reader._replace(token=leased[0])
            yield words, with_reader(state, j, after)._replace(server=leased[1])
    if reader.value is None and (reader.token is not None or not model.rules.lease_first):
        for value in answers(model, state, key):
            words = f"r{j} asks the database for key {key}: the answer has {named(value)}"
            yield words, with_reader(state, j, reader._replace(value=value))
    if reader.token is not None and reader.value is not None:
        server = set_value(state.server, key, reader.token, reader.value)
        after = Reader(None, None, reader.rounds - 1)
        words = f"r{j} sets key {key}" + (": void" if server is None else "")
        yield words, with_reader(state, j, after)._replace(server=server or state.server)


def named(value: int) -> str:
    """The transactions in a value, in words."""
    return " and ".join(f"w{i}'s change" for i in range(value.bit_length()) if value & 1 << i) or "no change"


def with_reader(state: State, j: int, reader: Reader) -> State:
    return state._replace(readers=state.readers[:j] + (reader,) + state.readers[j + 1 :])


def answers(model: Model, state: State, key: int) -> list[int]:
    """What the key's query may say now: all that is committed, and at a replica any part of that."""
    whole = committed(state.database) & model.touching[key]
    if model.rules.primary:
        return [whole]
    return sorted({whole & part for part in range(whole + 1)})


# ---- openers ----


def opens(model: Model, state: State, k: int) -> Steps:
    """Asks for the server's run, and opens a new life at the database. Behind that the server may hear so at any
    time, and again."""
    opener = state.openers[k]
    if not opener.run:
        yield f"o{k} asks for the server's run", with_opener(state, k, Opener(state.server.run, 0))
    elif not opener.life:
        database = open_life(state.database, opener.run, model.rules)
        if database is not None:
            words = f"o{k} opens life {database.life} at the database"
            yield words, with_opener(state, k, Opener(opener.run, database.life))._replace(database=database)
    else:
        server = open_server(state.server, opener.run, opener.life, model.rules)
        if server is not None:
            yield f"the server hears o{k}: it is open in life {opener.life}", state._replace(server=server)


def with_opener(state: State, k: int, opener: Opener) -> State:
    return state._replace(openers=state.openers[:k] + (opener,) + state.openers[k + 1 :])


# ---- the server by itself ----


def server_moves(model: Model, state: State) -> Steps:
    """A value goes, a lease ends, and the server crashes."""
    for key, item in enumerate(state.server.items):
        if item.value is not None:
            yield f"key {key}'s value goes", state._replace(server=lose_value(state.server, key))
        if item.lease is not None:
            freed = with_item(state.server, key, item._replace(lease=None))
            yield f"the lease on key {key} ends", state._replace(server=freed)
    if state.restarts:
        restarted = state._replace(server=restart(state.server, model.rules), restarts=state.restarts - 1)
        yield "the server crashes and comes back", restarted
