#!/usr/bin/env python3
"""check_proof.py: checks what `hubctl proof` prints, without the program and without a site.

Usage: check_proof.py PROOF [DIGEST]..

PROOF is the file. A DIGEST is what somebody kept who does not run the site that made the proof, such as 1:17:e3b0.. of
another site, or of the records of a bank: the number of a site, a count, and 64 digits. The exit status is 0 if all
fits.
"""
import hashlib
import json
import sys


def after(entry):
    """The digest with an entry: the SHA-256 of the 32 bytes of the digest before it, its line, and a line feed."""
    return hashlib.sha256(bytes.fromhex(entry["before"]) + entry["message"].encode() + b"\n").hexdigest()


def main():
    proof, kept = json.load(open(sys.argv[1], encoding="utf-8")), sys.argv[2:]
    are_right = bool(proof["entries"])
    for entry in proof["entries"]:
        place = f"{entry['origin']}:{entry['number']}"
        name = f"entry {entry['number']} of site {entry['origin']}, {json.loads(entry['message'])['MsgId']}"
        is_right = after(entry) == entry["after"] and (entry["number"] > 1 or entry["before"] == "0" * 64)
        print(f"{name}: {'the digests fit the message' if is_right else 'WRONG: the digests do not fit the message'}")
        same = [site["url"] for site in entry["sites"] if site["digest"] == entry["after"]]
        other = [site["url"] for site in entry["sites"] if site["digest"] not in (None, entry["after"])]
        print(f"  held by {', '.join(same) or 'no site that was asked'}"
              f"{''.join(f'; WRONG: not by {url}' for url in other)}")
        of_it = [digest for digest in kept if digest.startswith(f"{place}:")]
        for digest in of_it:
            print(f"  {'kept, too' if digest == f'{place}:' + entry['after'] else 'WRONG: another one was kept'}: "
                  f"{digest}")
        are_right = are_right and is_right and not other and set(of_it) <= {f"{place}:{entry['after']}"}
    return 0 if are_right else 1


if __name__ == "__main__":
    sys.exit(main())
