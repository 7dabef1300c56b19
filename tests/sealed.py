"""Opens envelopes that the library sealed, with Python's cryptography: sealed.py FILE.

A line of the file: key, authentication key, the meter's title, the envelope and its plain text, in hexadecimal digits.
"""

import sys

from cryptography.hazmat.primitives.ciphers import Cipher, algorithms, modes

TAG_LENGTH = 12


def content_of(envelope):
    """What stands behind the tag and the length, which must count it."""
    first = envelope[1]
    width = first - 0x80 if first > 0x80 else 0
    length = int.from_bytes(envelope[2 : 2 + width], "big") if width else first
    content = envelope[2 + width :]
    if length != len(content):
        raise ValueError(f"the length says {length}, there are {len(content)} bytes")
    return content


def opened(key, authentication, title, envelope):
    """The plain text; raises where the tag is wrong."""
    content = content_of(envelope)
    control, counter, sealed = content[:1], content[1:5], content[5:]
    cipher_text, tag = sealed[:-TAG_LENGTH], sealed[-TAG_LENGTH:]
    mode = modes.GCM(title + counter, tag, min_tag_length=TAG_LENGTH)
    decryptor = Cipher(algorithms.AES(key), mode).decryptor()
    decryptor.authenticate_additional_data(control + authentication)
    return decryptor.update(cipher_text) + decryptor.finalize()


def main():
    with open(sys.argv[1]) as file:
        lines = [[bytes.fromhex(word) for word in line.split()] for line in file]
    for number, (*sealed, plain) in enumerate(lines, 1):
        if opened(*sealed) != plain:
            sys.exit(f"tests: line {number} of {sys.argv[1]} opens to another text")
    if not lines:
        sys.exit("tests: there are no sealed replies to open")
    print(f"tests: {len(lines)} sealed replies opened by cryptography")


main()
