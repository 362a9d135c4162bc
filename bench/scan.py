"""The scan of a block for its links, against the length of the block.

The block is nested arrays, one in the other to the last byte: each byte is a head of its own. It is put under a
dag-cbor CID and scanned, and under a raw CID and not scanned, both with its sha2-256 digest. Behind it in the put
stands a pair under a wrong digest, so that nothing is kept. What lies between is the scan.

Run by `bench/run scan`.
"""
import hashlib
import os
import sys

from timing import best, new_store, put_script, shown, trace

LENGTHS = (1_000_000, 8_000_000)

DAG_CBOR = bytes.fromhex("01711220")
RAW = bytes.fromhex("01551220")
WRONG = (RAW + bytes(32), b"")


def main(folder):
    store = new_store(os.path.join(folder, "scan"))
    commands = []
    for length in LENGTHS:
        data = b"\x81" * (length - 1) + b"\x80"
        digest = hashlib.sha256(data).digest()
        for name, codec in (("scanned", DAG_CBOR), ("unscanned", RAW)):
            path = os.path.join(folder, f"{name}-{length}")
            put_script(path, [(codec + digest, data), WRONG], store, "mismatch 1")
            commands.append(trace(path, store))

    times = best(commands)
    scans = []
    print("scan of nested arrays")
    for place, length in enumerate(LENGTHS):
        scanned, unscanned = times[2 * place], times[2 * place + 1]
        scans.append(scanned - unscanned)
        each = scans[-1] * 1e9 / length
        print(f"  {length:,} bytes: put, scanned {shown(scanned)}; not scanned {shown(unscanned)}; "
              f"the scan {shown(scans[-1])}, {each:.2f} ns a byte")
    print(f"  ratio {scans[1] / scans[0]:.2f} for {LENGTHS[1] / LENGTHS[0]:.0f} times the bytes "
          f"(wanted: no more than about {LENGTHS[1] / LENGTHS[0]:.0f}, which is linear)")


if __name__ == "__main__":
    main(sys.argv[1])
