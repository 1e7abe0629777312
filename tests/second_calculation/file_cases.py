"""The cases that are whole files, family by family.

Every family yields pairs of a label and the bytes of a file. What is expected of a
file is said by none of them: day_file.py judges them all.
"""

import damage_cases as damage
import field_cases as field
import order_cases as order
import owner_cases as owner
import shape_cases as shape

FAMILIES = [
    shape.small_days, shape.lengths, shape.counts_off, shape.crowded_days, shape.full_days,
    field.limits, field.patterns, field.limits_all_at_once, field.unnamed_bytes_set,
    field.first_of_two_faults,
    owner.ownership, owner.owners_bytes_turned, owner.owners_among_participants,
    order.strange_kinds, order.pairs_of_kinds, order.orders, order.numbers_rising_or_not,
    order.real_time_numbers,
    damage.wrong_checks, damage.faults_in_one_block, damage.out_of_order_and_more,
    damage.faults_in_two_blocks, damage.moved_blocks, damage.damaged_bytes,
    damage.random_right_days, damage.random_wrong_fields,
]


def all_files():
    for family in FAMILIES:
        for label, data in family():
            yield f"{family.__name__}: {label}", data
