"""All the groups, in the order in which the files have them."""

from .groups_ciphers import ieee_1619, independent, key_schedules, rfc_3962, single_blocks, wrong_lengths
from .groups_kernel import kernel_as_stored, kernel_from_json
from .groups_malformed import malformed
from .groups_names import plain_names, refused_names, shown_names, stored_names, worked_letters, worked_padding
from .groups_policies import contexts, policies, same_policies, worked_policies
from .groups_unclean import damaged_names, unclean_names, wrong_keys
from .lines import Lines

CIPHER_GROUPS = [key_schedules, single_blocks, rfc_3962, ieee_1619, independent, wrong_lengths]
POLICY_GROUPS = [worked_policies, policies, contexts, same_policies]
NAME_GROUPS = [worked_padding, worked_letters, plain_names, stored_names, refused_names, wrong_keys, damaged_names, unclean_names, shown_names]


def all_lines(kernel):
    """The texts of both files. `kernel` is the path of the kernel's values, or None for those in the stored files."""
    lines = Lines()
    lines.say("Made by tools/vectors.py: do not edit. A request to a line, and its answer in the same line of the other file.")
    for group in CIPHER_GROUPS + POLICY_GROUPS + NAME_GROUPS + [malformed]:
        group(lines)
    if kernel is None:
        kernel_as_stored(lines)
    else:
        kernel_from_json(lines, kernel)
    return lines.texts()
