#!/usr/bin/env python3
"""Writes a script of about N turns: reads of every kind of key and invalidating writes, interleaved.
usage: load.py TURNS [SEED]"""
import random, sys
turns, seed = int(sys.argv[1]), int(sys.argv[2]) if len(sys.argv) > 2 else 1
rng = random.Random(seed)
members = 40
out = [f'members {members}', 'shards 8', 'room 64']
session, used, live = 0, 0, []
while used < turns:
    while len(live) < 6:
        session += 1
        a = rng.randint(1, members); b = rng.choice([m for m in range(1, members + 1) if m != a])
        if rng.random() < 0.8:
            kind = rng.choice(['profile', 'friends', 'pending', 'nfriends', 'npending'])
            out.append(f'read {session} {kind}:{a}'); need = 3
        else:
            change = rng.choice(['invite', 'accept', 'reject', 'thaw'])
            out.append(f'write {session} invalidate {change} {a} {b}'); need = {'invite': 8, 'reject': 8, 'accept': 18, 'thaw': 14}[change]
        live.append([session, need])
    one = rng.choice(live)
    count = min(rng.randint(1, one[1]), turns - used)
    out.append(f'turn {one[0]} {count}'); used += count; one[1] -= count
    if one[1] <= 0: live.remove(one)
out.append('end')
print('\n'.join(out))
