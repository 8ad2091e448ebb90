#!/usr/bin/env python3
"""Writes the stored months, freeze files laid end to end, and the report on each as the independent model says it.
Use: make_month.py EXPECTED FOLDER, EXPECTED being the model's program."""
import os, subprocess, sys

sys.dont_write_bytecode = True
from make_shows import FILES, NONE, biggest, functor, header, image, k, largest, li, night_a, record, st, tiny, v

MOST_TOGETHER = 400000  # bytes of all stored inputs
SHOWN = {name.removesuffix('.freeze'): data for name, data in FILES}
NIGHT = len(night_a)
MONTHS = []


def add(name, *parts):
    """A month of these parts; a part is the bytes themselves or the name of a file of the listing's tests."""
    MONTHS.append((name, b''.join(SHOWN[part] if isinstance(part, str) else part for part in parts)))


def changed(data, at, byte):
    return data[:at] + bytes([byte]) + data[at + 1:]


# figures
add('empty')
add('night_a', night_a)
add('night_a_four_states', 'night_a', 'night_a_collected', 'night_a_stepped_back', 'night_a_collected_stepped_back')
add('nothing_in_it', 'nothing_in_it', 'nothing_in_it')


def every_tag():
    # kept 2 VAR, 3 STRUCT, 4 LIST, 5 CONST; dropped 6 VAR, 7 STRUCT, 8 LIST, 9 CONST
    kept = [v(0), v(5), st(9), st(9), st(9), li(0), li(0), li(2), li(4), functor(5, 1), k(1), k(2), k(3), k(4)]
    dropped = [v(14)] * 6 + [st(9)] * 6 + [st(35)] + [li(12)] * 8 + [functor(6, 2)] + [k(7)] * 8
    return tiny([st(9)] + [v(i) for i in range(14) if i != 9], kept + dropped)


def one_deeper(frames):
    # control's chain has one frame; that of the choice point above it as many as said
    stack = []
    for f in range(frames):
        stack += [0, 2 * (f - 1) if f else NONE]
    point = len(stack)
    stack += header(0, point - 2 if frames else NONE, NONE, 0, 0)
    stack += [0, NONE]
    return image(header(0, point + 7, point, 0, 0), stack, [], [])


add('every_tag', every_tag())
add('all_dead', tiny([], [v(0), v(0), li(0), k(2)], trail=[0, 0, 3]))
add('deepest', one_deeper(0), one_deeper(3), one_deeper(2), one_deeper(1))
add('shared_frames', *(name for name in SHOWN if name.startswith('shared_frame')))

# refused images
REFUSED = ['frame_its_own_parent', 'two_frames_overlap', 'bit_in_heap', 'bit_in_stack_frame', 'bit_in_control', 'reference_in_heap', 'reference_in_stack',
           'reference_in_control', 'entry_at_h', 'functor_named_by_var_in_heap', 'functor_named_by_list_from_in_stack', 'functor_named_by_struct_in_control',
           'functor_named_by_entry']
add('refused_each', *REFUSED)
add('refused_between', 'entry_at_h', night_a, 'reference_in_heap', 'reference_in_stack', night_a, 'bit_in_control', 'frame_its_own_parent', 'night_a_collected',
    'two_frames_overlap', 'nothing_in_it', 'choice_point_t_above')
add('refused_last', night_a, 'night_a_entry_9')
add('refused_3_and_4', night_a, 'newer_frame_at_500_and_older_t_above', 'two_conflicts', 'chains_whole', 'frame_in_an_empty_stack',
    'frame_broken_only_in_its_older_view', 'two_conflicts_and_a_broken_chain', night_a)
add('refused_17', night_a, 'structures_overlap', 'functor_not_named', 'functor_named_of_a_dead_struct')

# files that end early
add('cut_first', night_a[:50])
add('cut_last', night_a, night_a[:120])
add('cut_between_records', night_a, night_a[:117])
add('cut_before_the_end', night_a, night_a[:NIGHT - 1])
add('cut_after_the_counts', night_a, night_a[:17])
add('cut_in_the_counts', night_a, night_a[:16])
add('cut_after_one_byte', night_a, night_a[:1])
add('cut_after_refused', 'entry_at_h', 'bit_in_heap', night_a[:19])

# other kinds
add('kind_in_the_second', night_a, changed(night_a, 57, 4), night_a)
add('kind_0_first', night_a, b'\x00')
add('kind_255_where_it_is_cut', night_a, night_a[:57] + b'\xff')
add('kind_16_first', night_a, changed(night_a, 0, 16), night_a)
add('end_twice', night_a, record(6), night_a)
add('end_missing', night_a[:NIGHT - 1], night_a)

# counts above the room, and counts that differ
for place, area in enumerate(('control', 'stack', 'heap', 'trail')):
    counts = [262, 1024, 2048, 512]
    counts[place] += 1
    add('room_' + area, night_a, record(1, *counts))
add('room_far', night_a, record(1, NONE, NONE, NONE, NONE), night_a)
add('room_before_kind', night_a, record(1, 7, 1025, 0, 0) + b'\x00', night_a)
add('differ_in_n', night_a, 'counts_differ_in_n', night_a)
add('differ_in_h', night_a, 'counts_differ_in_h')
add('differ_in_t', night_a, 'counts_differ_in_t', night_a)
add('differ_control_6', night_a, 'control_count_6', night_a)
add('differ_control_0', 'control_count_0', night_a)
add('differ_but_cut', night_a, SHOWN['counts_differ_in_h'][:-1])

# many files, and long ones


def frames_only():
    # 512 frames without a cell on one another, all buffers full
    stack = []
    for f in range(512):
        stack += [0, 2 * (f - 1) if f else NONE]
    return image(header(0, 1022, NONE, 512, 2048, [v(i) for i in range(255)]), stack, [v(i) for i in range(2048)], list(range(0, 2048, 4)))


def points_only():
    # 146 choice points above a frame that all of them see, all buffers full
    stack = [0, NONE]
    for p in range(146):
        stack += header(0, 0, 2 + 7 * (p - 1) if p else NONE, 3 * p, 14 * p)
    return image(header(0, 0, 2 + 7 * 145, 512, 2048, [li(i) for i in range(255)]), stack, [li(i // 2) for i in range(2048)], [2047 - i for i in range(512)])


for longest in (biggest, largest(), frames_only(), points_only()):
    assert len(longest) == 19248
SMALL = ['nothing_in_it', 'list_at_h_less_2', 'arity_0', 'equal_entries_kept', 'frame_ends_at_the_child', 'entry_on_a_frame_field', 'boundary_at_2']
add('longest', frames_only(), points_only(), largest())
add('small_after_longest', biggest, 'entry_past_the_counted_stack', 'structure_ends_past_h', 'list_at_h_less_1', 'control_var_names_a_word_without_role',
    'nothing_in_it', 'n_255', night_a)
add('longest_cut', night_a, biggest[:-1])
add('many', *(SMALL[i * i % 11 % len(SMALL)] for i in range(700)))


def main():
    expected, folder = sys.argv[1:3]
    listed = {name: subprocess.run([expected, '/dev/stdin'], input=data, capture_output=True, check=True).stdout for name, data in SHOWN.items()}
    add('all_images', *(name for name in SHOWN if not listed[name].startswith(b'file ')))
    assert len(set(name for name, _ in MONTHS)) == len(MONTHS)
    assert sum(len(data) for _, data in MONTHS) < MOST_TOGETHER
    os.makedirs(folder, exist_ok=True)
    for old in os.listdir(folder):
        os.remove(os.path.join(folder, old))
    for name, data in MONTHS:
        path = os.path.join(folder, 'month_' + name)
        open(path + '.freezes', 'wb').write(data)
        report = subprocess.run([expected, 'month'], input=data, capture_output=True, check=True).stdout
        open(path + '.txt', 'wb').write(report)
    print(len(MONTHS), 'months,', sum(len(data) for _, data in MONTHS), 'bytes')


if __name__ == '__main__':
    main()
