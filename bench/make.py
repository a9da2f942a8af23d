#!/usr/bin/env python3
"""Makes a script for `txn run`.

N documents and N transactions in batches of at most 10,000:

    bench/make.py apart N       each transaction on a document of its own
    bench/make.py one N         all transactions on one of the documents

The same, each transaction on a document of its own, with an assertion before its update:

    bench/make.py applied N     every assertion holds
    bench/make.py mixed N       every other one fails, so that half of the transactions are aborted
    bench/make.py aborted N     every assertion fails

One document in a line of N bytes, and a `show`:

    bench/make.py list N        a long list of numbers
    bench/make.py text N        a long text
    bench/make.py objects N     a list of small objects
    bench/make.py names N       an object of many names

One transaction of one operation in a line of N bytes, which is applied:

    bench/make.py query N       a query of many names
    bench/make.py update N      an update of many paths

A store of N cells that are placed and printed again: N / 2 settled records, and as many documents whose queues
name them, in the order of names:

    bench/make.py cells N

A store of at most N cells that is audited:

    bench/make.py documents N   documents alone
    bench/make.py settled N     settled records, as many documents whose queues name them, and the counter

A store of N unsettled records that is audited. Each has an operation on a document that it shares with the one before
it and on one that it shares with the one after it, and waits for the one before it. The first is applying:

    bench/make.py chain N
    bench/make.py ring N        the first waits for the last too

Operations that are read and not run, since a line is refused behind them (status 3):

    bench/make.py operations N  one line of N operations, 16,000 bytes each (at most 1,000)
    bench/make.py waiting N     N lines of one operation, 1,600 bytes each (at most 10,000), and a faulty one
"""

import sys

BATCH = 10_000


def document(n):
    return '{"doc":["k",%d],"body":{"v":0}}' % n


def transaction(n, operations):
    return '{"txn":"%024x","ops":[%s]}' % (n + 1, operations)


def setting(key, n):
    return '{"c":"k","d":%d,"u":{"$set":{"v":%d}}}' % (key, n)


def asking(key, value):
    """The body's `v` is 0, so that this holds for 0 alone."""
    return '{"c":"k","d":%d,"a":{"v":%d},"u":{"$inc":{"v":1}}}' % (key, value)


OPERATIONS = {
    "apart": lambda n: setting(n, n),
    "one": lambda n: setting(0, n),
    "applied": lambda n: asking(n, 0),
    "mixed": lambda n: asking(n, n % 2),
    "aborted": lambda n: asking(n, 1),
}


def batches(form, count):
    for n in range(count):
        yield document(n)
    for n in range(count):
        yield transaction(n, OPERATIONS[form](n))
        if n % BATCH == BATCH - 1:
            yield '{"go":{}}'
    yield '{"go":{}}'


def many_names(size, value):
    """Fields with distinct names in no order, of at most `size` bytes."""
    count = size // (14 + len(value))
    return ",".join('"n%09d":%s' % (n * 7919 % 10**9, value) for n in range(count))


def long_body(form, size):
    """A body of at most `size` bytes."""
    if form == "text":
        return '{"t":"%s"}' % ("x" * (size - 8))
    if form == "list":
        return '{"l":[%s]}' % ",".join(["12345678"] * ((size - 8) // 9))
    if form == "objects":
        return '{"l":[%s]}' % ",".join(['{"a":1,"b":"x"}'] * ((size - 8) // 16))
    return "{%s}" % ",".join('"n%09d":%d' % (n * 7919 % 10**9, n % 10) for n in range((size - 8) // 15))


def long_line(form, size):
    yield '{"doc":["k","a"],"body":%s}' % long_body(form, size - 64)
    yield '{"show":true}'


def query_of(size):
    """An assertion of at most `size` bytes that holds of small bodies: no field of these names is there."""
    return '"a":{%s}' % many_names(size - 8, "null")


def update_of(size):
    return '"u":{"$set":{%s}}' % many_names(size - 16, "0")


def long_operation(form, size):
    part = query_of(size - 96) if form == "query" else update_of(size - 96)
    yield document(0)
    yield transaction(0, '{"c":"k","d":0,%s}' % part)
    yield '{"go":{}}'


def cells(form, count):
    half = count // 2
    for n in range(half):
        yield settled_record(n)
    for n in range(count - half):
        yield (
            '{"c":"k","cell":"doc","is":{"_id":%d,"txn-queue":["%024x_%08x"],"txn-revno":1,"v":%d}}'
            % (n, n % half + 1, n % half, n)
        )
    yield '{"export":true}'


def settled_record(n):
    return '{"cell":"record","is":{"_id":"%024x","n":"%08x","o":[%s],"r":[0],"s":6}}' % (n + 1, n, setting(n, n))


def audited(form, count):
    if form == "documents":
        for n in range(count):
            yield document(n)
    else:
        half = (count - 1) // 2
        for n in range(half):
            yield settled_record(n)
        for n in range(half):
            yield queued_document(n, [n], '"txn-revno":1,')
        yield counter_at(half)
    yield '{"audit":true}'


def counter_at(nonce):
    return '{"cell":"nonce","is":{"next":%d}}' % nonce


def queued_document(key, transactions, number):
    tokens = ",".join('"%024x_%08x"' % (n + 1, n) for n in transactions)
    return '{"c":"k","cell":"doc","is":{"_id":%d,"txn-queue":[%s],%s"v":0}}' % (key, tokens, number)


def unsettled(form, count):
    """The nth transaction waits for the one before it on the document n."""
    is_ring = form == "ring"
    for n in range(count):
        after = (n + 1) % count if is_ring else n + 1
        state = '"r":[0,0],"s":4' if n == 0 else '"s":2'
        yield (
            '{"cell":"record","is":{"_id":"%024x","n":"%08x","o":[%s,%s],%s}}'
            % (n + 1, n, setting(n, n), setting(after, n), state)
        )
    for key in range(count if is_ring else count + 1):
        before = [key - 1] if key > 0 else [count - 1] if is_ring else []
        yield queued_document(key, before + ([key] if key < count else []), "")
    yield counter_at(count)
    yield '{"audit":true}'


def many_operations(form, count):
    yield document(0)
    operation = '{"c":"k","d":0,%s}' % query_of(16_000 - 24)
    yield transaction(0, ",".join([operation] * count))


def many_waiting(form, count):
    yield document(0)
    operation = '{"c":"k","d":0,%s}' % query_of(1_600 - 72)
    for n in range(count):
        yield transaction(n, operation)
    yield transaction(count, "{}")


FORMS = dict.fromkeys(OPERATIONS, batches)
FORMS.update(dict.fromkeys(["list", "text", "objects", "names"], long_line))
FORMS.update(dict.fromkeys(["query", "update"], long_operation))
FORMS.update(dict.fromkeys(["documents", "settled"], audited))
FORMS.update(dict.fromkeys(["chain", "ring"], unsettled))
FORMS.update({"cells": cells, "operations": many_operations, "waiting": many_waiting})


def main():
    if len(sys.argv) != 3 or sys.argv[1] not in FORMS:
        sys.exit(__doc__)
    for line in FORMS[sys.argv[1]](sys.argv[1], int(sys.argv[2])):
        print(line)


if __name__ == "__main__":
    main()
