"""BLAKE2b of one block of 7,000,000 bytes, against b2sum on the same bytes.

A put under a wrong blake2b-256 digest reads the script, hashes the block and keeps nothing. The same put under a hash
code that the store does not know differs in one digit of the script, and hashes nothing. What lies between is the hash.

Run by `bench/run blake2b`.
"""
import os
import random
import sys

from timing import best, new_store, put_script, shown, trace

LENGTH = 7_000_000
MOST = 1.25

WRONG_DIGEST = bytes.fromhex("0155a0e40220") + bytes(32)
UNKNOWN_HASH = bytes.fromhex("0155a1e40220") + bytes(32)


def main(folder):
    data = random.Random(1).randbytes(LENGTH)
    block, nothing = os.path.join(folder, "block"), os.path.join(folder, "nothing")
    for path, content in ((block, data), (nothing, b"")):
        with open(path, "wb") as file:
            file.write(content)
    store = new_store(os.path.join(folder, "blake2b"))
    hashed, unhashed = os.path.join(folder, "hashed"), os.path.join(folder, "unhashed")
    put_script(hashed, [(WRONG_DIGEST, data)], store, "mismatch 0")
    put_script(unhashed, [(UNKNOWN_HASH, data)], store, "unknown-hash 0")

    b2sum = ["b2sum", "-l", "256"]
    times = best([trace(hashed, store), trace(unhashed, store), (b2sum, block, store), (b2sum, nothing, store)])
    ours, theirs = times[0] - times[1], times[2] - times[3]
    print(f"BLAKE2b of {LENGTH:,} bytes")
    print(f"  put, hashed {shown(times[0])}; not hashed {shown(times[1])}; the hash {shown(ours)}")
    print(f"  b2sum -l 256 {shown(times[2])}; of nothing {shown(times[3])}; the hash {shown(theirs)}")
    print(f"  ratio {ours / theirs:.2f} (wanted: at most {MOST})")


if __name__ == "__main__":
    main(sys.argv[1])
