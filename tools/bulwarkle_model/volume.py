"""The encrypted volume of document 01 and its thirteen requests.

Terms, with document 01's own: volume (shelf), inode (thing), directory entry
(place), directory (folder), keyring (ring).

Each request has a list of checks in document 01's order, every check being a
reason and whether it fails. The first failing one is the refusal. A check that
has no meaning, because an earlier one fails, counts as passed.
"""

from dataclasses import dataclass
from typing import NamedTuple, Optional

from .ciphers import decrypt_xts, derive_key, encrypt_xts
from .names import decrypt_name, encode_name, encrypt_name, is_plain_name, name_faults
from .policy import KEY_LENGTH, Context, policy_faults, read_policy
from .reasons import Refused

KEYS, INODES, ENTRIES = 8, 64, 64
ROOT = 0
DIRECTORY, REGULAR, SYMLINK, SPECIAL = KINDS = 1, 2, 3, 4
KEY_LENGTHS = (16, 32, 48, 64)
BLOCK_LENGTH = 4096
NAME_BUFFER = 255


class Key(NamedTuple):
    descriptor: bytes
    key: bytes


@dataclass
class Inode:
    kind: int
    context: Optional[Context]


@dataclass
class Entry:
    parent: int
    inode: int
    stored: bytes


class Shown(NamedTuple):
    """The answer of show; `form` is plain, decrypted (with the key) or encoded (without it)."""

    parent: int
    inode: int
    kind: int
    form: str
    name: bytes


def _free(table):
    """The lowest free number of a table, or None where all are in use."""
    return table.index(None) if None in table else None


class Volume:
    """A fresh volume has the root directory and nothing else."""

    def __init__(self):
        self.keys = [None] * KEYS
        self.inodes = [Inode(DIRECTORY, None)] + [None] * (INODES - 1)
        self.entries = [None] * ENTRIES

    # ---- Lookups. All of these take any number.

    def inode(self, number):
        return self.inodes[number] if number < INODES else None

    def entry(self, number):
        return self.entries[number] if number < ENTRIES else None

    def context(self, number):
        return self.inode(number) and self.inode(number).context

    def is_directory(self, number):
        return self.inode(number) is not None and self.inode(number).kind == DIRECTORY

    def children(self, number):
        """The entries in a directory."""
        return [entry for entry in self.entries if entry and entry.parent == number]

    def slot(self, descriptor):
        """The keyring slot of a descriptor, or None."""
        held = [key and key.descriptor for key in self.keys]
        return held.index(descriptor) if descriptor in held else None

    def derived_key(self, context):
        """The derived key of a context, or None where the policy's key is absent."""
        slot = self.slot(context.policy.descriptor)
        if slot is None or len(self.keys[slot].key) != KEY_LENGTH:
            return None
        return derive_key(self.keys[slot].key, context.nonce)

    def key_absent(self, number):
        """An inode that is encrypted and whose key is absent."""
        context = self.context(number)
        return context is not None and self.derived_key(context) is None

    def stored_name(self, parent, name):
        """The bytes stored for a plain name in a directory, or None where they can't be had."""
        if not is_plain_name(name) or not self.is_directory(parent):
            return None
        context = self.context(parent)
        if context is None:
            return name
        key = self.derived_key(context)
        return key and encrypt_name(key[:32], context.policy.padding, name)

    def match(self, parent, name):
        """The entry with this name in a directory, or None. Names are compared as stored."""
        stored = self.stored_name(parent, name)
        for number, entry in enumerate(self.entries):
            if stored and entry and entry.parent == parent and entry.stored == stored:
                return number
        return None

    def nonce_borne(self, nonce):
        return any(inode and inode.context and inode.context.nonce == nonce
                   for inode in self.inodes)

    def policy_refused(self, number, parent):
        """An encrypted directory would gain a file, directory or symlink without its policy."""
        moved, there = self.inode(number), self.context(parent)
        if moved is None or there is None or not self.is_directory(parent):
            return False
        has = moved.context and moved.context.policy
        return moved.kind != SPECIAL and has != there.policy

    def under_itself(self, number, parent):
        """The climb from `parent` meets the directory `number` before the root."""
        if not self.is_directory(number) or not self.is_directory(parent):
            return False
        while parent not in (number, ROOT):
            parent = next(entry.parent for entry in self.entries
                          if entry and entry.inode == parent)
        return parent == number

    # ---- Refusals.

    def failing(self, request, *arguments):
        """The reasons of all failing checks of a request, in order. Changes nothing."""
        checks = getattr(self, request + "_checks")(*arguments)
        return [reason for reason, fails in checks if fails]

    def _refuse(self, request, *arguments):
        failing = self.failing(request, *arguments)
        if failing:
            raise Refused(failing[0])

    # ---- The keyring.

    def add_key_checks(self, descriptor, key):
        return [
            ("key-length", len(key) not in KEY_LENGTHS),
            ("descriptor-held", self.slot(descriptor) is not None),
            ("no-free-key-slot", _free(self.keys) is None),
        ]

    def add_key(self, descriptor, key):
        self._refuse("add_key", descriptor, key)
        self.keys[_free(self.keys)] = Key(descriptor, key)

    def remove_key_checks(self, descriptor):
        return [("key-not-held", self.slot(descriptor) is None)]

    def remove_key(self, descriptor):
        self._refuse("remove_key", descriptor)
        self.keys[self.slot(descriptor)] = None

    # ---- Policies.

    def set_policy_checks(self, number, policy, nonce):
        here = self.context(number)
        first = self.inode(number) is not None and here is None
        return [
            ("no-inode", self.inode(number) is None),
            *policy_faults(policy),
            ("other-policy", here is not None and here.policy.to_bytes() != policy),
            ("policy-on-root", first and number == ROOT),
            ("policy-on-non-directory", first and not self.is_directory(number)),
            ("directory-not-empty", first and self.children(number) != []),
            ("nonce-borne", first and self.nonce_borne(nonce)),
        ]

    def set_policy(self, number, policy, nonce):
        self._refuse("set_policy", number, policy, nonce)
        if self.context(number) is None:
            self.inodes[number].context = Context(read_policy(policy), nonce)

    def get_policy_checks(self, number):
        there = self.inode(number) is not None
        return [
            ("no-inode", not there),
            ("no-context", there and self.context(number) is None),
        ]

    def get_policy(self, number):
        self._refuse("get_policy", number)
        return self.context(number).policy.to_bytes()

    # ---- Directory entries.

    def _parent_checks(self, parent):
        return [
            ("no-parent", self.inode(parent) is None),
            ("parent-not-directory",
             self.inode(parent) is not None and not self.is_directory(parent)),
        ]

    def create_checks(self, parent, kind, name, nonce):
        needs_nonce = self.context(parent) is not None and kind != SPECIAL
        return [
            *name_faults(name),
            ("kind", kind not in KINDS),
            *self._parent_checks(parent),
            ("parent-key", self.key_absent(parent)),
            ("name-taken", self.match(parent, name) is not None),
            ("nonce-borne", needs_nonce and self.nonce_borne(nonce)),
            ("no-free-inode", _free(self.inodes) is None),
            ("no-free-entry", _free(self.entries) is None),
        ]

    def create(self, parent, kind, name, nonce):
        self._refuse("create", parent, kind, name, nonce)
        context = self.context(parent)
        if context is not None:
            context = Context(context.policy, nonce) if kind != SPECIAL else None
        number = _free(self.inodes)
        self.inodes[number] = Inode(kind, context)
        return number, self._add_entry(parent, number, name)

    def _add_entry(self, parent, number, name):
        entry = _free(self.entries)
        self.entries[entry] = Entry(parent, number, self.stored_name(parent, name))
        return entry

    def link_checks(self, number, parent, name):
        return [
            *name_faults(name),
            ("no-inode", self.inode(number) is None),
            *self._parent_checks(parent),
            ("linking-directory", self.is_directory(number)),
            ("parent-key", self.key_absent(parent)),
            ("policy", self.policy_refused(number, parent)),
            ("name-taken", self.match(parent, name) is not None),
            ("no-free-entry", _free(self.entries) is None),
        ]

    def link(self, number, parent, name):
        self._refuse("link", number, parent, name)
        return self._add_entry(parent, number, name)

    def rename_checks(self, number, parent, name):
        entry = self.entry(number)
        return [
            *name_faults(name),
            ("no-entry", entry is None),
            *self._parent_checks(parent),
            ("old-parent-key", entry is not None and self.key_absent(entry.parent)),
            ("new-parent-key", self.key_absent(parent)),
            ("policy", entry is not None and self.policy_refused(entry.inode, parent)),
            ("under-itself", entry is not None and self.under_itself(entry.inode, parent)),
            ("name-taken", self.match(parent, name) is not None),
        ]

    def rename(self, number, parent, name):
        self._refuse("rename", number, parent, name)
        inode = self.entries[number].inode
        self.entries[number] = Entry(parent, inode, self.stored_name(parent, name))

    def exchange_checks(self, first, second):
        one, two = self.entry(first), self.entry(second)
        both = one is not None and two is not None
        return [
            ("no-first-entry", one is None),
            ("no-second-entry", two is None),
            ("first-parent-key", one is not None and self.key_absent(one.parent)),
            ("second-parent-key", two is not None and self.key_absent(two.parent)),
            ("first-policy", both and self.policy_refused(one.inode, two.parent)),
            ("second-policy", both and self.policy_refused(two.inode, one.parent)),
            ("first-under-itself", both and self.under_itself(one.inode, two.parent)),
            ("second-under-itself", both and self.under_itself(two.inode, one.parent)),
        ]

    def exchange(self, first, second):
        self._refuse("exchange", first, second)
        one, two = self.entries[first], self.entries[second]
        one.inode, two.inode = two.inode, one.inode

    def remove_checks(self, number):
        entry = self.entry(number)
        return [
            ("no-entry", entry is None),
            ("directory-not-empty", entry is not None and self.children(entry.inode) != []),
        ]

    def remove(self, number):
        self._refuse("remove", number)
        inode = self.entries[number].inode
        self.entries[number] = None
        if not any(entry and entry.inode == inode for entry in self.entries):
            self.inodes[inode] = None

    def find_checks(self, parent, name):
        known = self.stored_name(parent, name) is not None
        return [
            *name_faults(name),
            *self._parent_checks(parent),
            ("parent-key", self.key_absent(parent)),
            ("no-match", known and self.match(parent, name) is None),
        ]

    def find(self, parent, name):
        self._refuse("find", parent, name)
        return self.match(parent, name)

    # ---- Names shown, contents sealed and opened.

    def _form_and_name(self, number):
        """The form and the name of an entry, and the checks of its decryption."""
        entry = self.entries[number]
        context = self.context(entry.parent)
        if context is None:
            return "plain", entry.stored, []
        key = self.derived_key(context)
        if key is None:
            return "encoded", encode_name(entry.stored, number), []
        name, faults = decrypt_name(key[:32], context.policy.padding, entry.stored)
        return "decrypted", name, faults

    def show_checks(self, number, size):
        there = self.entry(number) is not None
        return [
            ("buffer-small", size < NAME_BUFFER),
            ("no-entry", not there),
            *(self._form_and_name(number)[2] if there else []),
        ]

    def show(self, number, size):
        self._refuse("show", number, size)
        entry = self.entries[number]
        form, name, _ = self._form_and_name(number)
        return Shown(entry.parent, entry.inode, self.inodes[entry.inode].kind, form, name)

    def seal_checks(self, number, _block_number, block):
        inode = self.inode(number)
        return [
            ("block-length", len(block) != BLOCK_LENGTH),
            ("no-inode", inode is None),
            ("not-regular", inode is not None and inode.kind != REGULAR),
            ("no-context", inode is not None and inode.context is None),
            ("inode-key", self.key_absent(number)),
        ]

    def seal(self, number, block_number, block):
        self._refuse("seal", number, block_number, block)
        return encrypt_xts(self.derived_key(self.context(number)), block_number, block)

    open_checks = seal_checks

    def open(self, number, block_number, block):
        self._refuse("open", number, block_number, block)
        return decrypt_xts(self.derived_key(self.context(number)), block_number, block)
