"""One request and its answer by known bytes, so many times: microseconds each, the fastest of 7 runs."""

import time

from mouktelf import Answer, StrictClient, packets_of

ANSWER = bytes.fromhex("0400002C0000010081010000000000000038016E00D105000000D106000000FD110000000200000000000000"
                       "0401001500000200FD000000000000000000000000")
TIMES = 2000


def exchange(client):
    client.start_batch("rows 5 2")
    client.send()
    told = 0
    for packet in packets_of(ANSWER, 512)[0]:
        taken = client.take(packet)
        told += len(taken.tokens)
    assert taken.answer == Answer.FINISHED
    return told


client, best = StrictClient(512), 1e9
for _ in range(7):
    begun = time.perf_counter()
    for _ in range(TIMES):
        told = exchange(client)
    best = min(best, (time.perf_counter() - begun) / TIMES * 1e6)
print(f"{best:.2f} microseconds, {told} tokens")
