#!/usr/bin/env python3
"""Makes the test vectors of the program vectors: the files stdin and stdout of crates/vectors.

    tools/vectors.py generate [KERNEL]    write both files
    tools/vectors.py check [KERNEL]       say whether both files are what `generate` would write

It needs Debian's python3, 3.11, and python3-cryptography, and runs from any directory: the files are those of the repository that the script is in.
Nothing of it is random: a byte string that no document gives is made from its own label by SHAKE-256.

Each answer comes from an independent implementation: AES of Python's cryptography, over OpenSSL, in ECB, CBC and XTS. The ciphertext stealing of
CBC-CS3 is written out in test_vectors. OpenSSL shows no key schedule, so KeyExpansion is written out too, and the rounds, run over each schedule, must
encrypt as OpenSSL does under the key. The rules of policies, contexts and names are written out from document 01, and the letters of a name that is
shown without its key must be those of Python's base64. A published value, and a worked case of document 01, stands there as a literal with its
source, and the script stops where the independent implementation does not agree with it.

KERNEL is the path of a JSON file with values of a Linux kernel's fscrypt, what it wrote to disk and what it answered, byte strings in hex:
    names: a list of {pair, master_key, dir_context, plain, cipher}
    blocks: a list of {pair, master_key, file_context, block, plain, cipher}
    policy_bytes: a list of [contents mode, names mode, flags, answer]
Those that document 01 speaks of, of pair 1/4, are copied into the files, so nothing needs the JSON later, which is not in the repository. Not copied
are the stored names of those whose rounding passes 255: there document 01 decides, and the answers are the independent implementation's. Without KERNEL
the kernel's group stays as the files have it, and each answer in it is computed again.
"""

import argparse
import sys

sys.dont_write_bytecode = True

from test_vectors.all_groups import all_lines  # noqa: E402
from test_vectors.files import check, write  # noqa: E402


def main():
    parser = argparse.ArgumentParser(description=__doc__, formatter_class=argparse.RawDescriptionHelpFormatter)
    parser.add_argument("command", choices=("generate", "check"))
    parser.add_argument("kernel", nargs="?", metavar="KERNEL", help="a JSON file with a Linux kernel's values")
    options = parser.parse_args()
    texts = all_lines(options.kernel)
    if options.command == "check":
        check(texts)
    else:
        write(texts)


if __name__ == "__main__":
    main()
