"""The text of a cache's file, made here without the program."""
import hashlib

WORD = (1 << 64) - 1


def shard_of(key, shards):
    """The shard of a key, out of so many: by FNV-1a of 64 bits."""
    number = 14695981039346656037
    for byte in key.encode():
        number = ((number ^ byte) * 1099511628211) & WORD
    return number % shards


def dump_text(shard, shards, rows):
    """The dump of a shard with these rows, each a key and its value."""
    parts = [f"iqdump 1 {shard} {shards} {len(rows)}\n"]
    parts += [f"{key} {len(value)}\n{value}\n" for key, value in rows]
    return "".join(parts + ["end\n"]).encode()


def body_text(dumps):
    """Dumps behind one another, each with its length in front."""
    return b"".join(b"%d\n%s" % (len(dump), dump) for dump in dumps)


def file_text(shards, body):
    """A body under its head, which has its digest."""
    return b"iqcache 1 %d %s\n%s" % (shards, hashlib.sha256(body).hexdigest().encode(), body)


def cache_text(shards, rows):
    """The text of a cache of so many shards with these rows, the least recent first."""
    homes = [[] for _ in range(shards)]
    for key, value in rows:
        homes[shard_of(key, shards)].append((key, value))
    return file_text(shards, body_text([dump_text(shard, shards, home) for shard, home in enumerate(homes)]))
