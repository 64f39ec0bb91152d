"""A second implementation of document 01, independent of the proved program.

It shares no code with test_vectors/ciphers.py and rules.py, so that each can be
checked by the other: `scripts.py selftest` compares the two.

ciphers   AES (OpenSSL's), CBC-CS3 and XTS written out from the standards, derived keys
policy    policies and contexts
names     plain names, padding, encryption of names, names shown without their key
volume    the volume and its thirteen requests
script    the text interface: lines, words, answers

It needs Debian's python3, 3.11, and python3-cryptography.
"""
