#!/usr/bin/env python3
"""Writes the stored questions of the program why: a freeze file, the arguments, one a line, and the text as the independent model says it.
Use: make_why.py EXPECTED FOLDER, EXPECTED being the model's program."""
import os, subprocess, sys

sys.dont_write_bytecode = True
from make_shows import BASE, FILES, NONE, biggest, functor, header, image, k, li, night_a, record, s, st, tiny, v

SHOWN = {name.removesuffix('.freeze'): data for name, data in FILES}
ASKED = []


def ask(name, data, *arguments):
    """A file, or the name of a file of the listing's tests, and the arguments."""
    ASKED.append((name, SHOWN[data] if isinstance(data, str) else data, [str(a) for a in arguments]))


def stacked(args, heap, frame=(), saved=(), older=()):
    """Control's frame at 0, the choice point above it, and over both another with the arguments `older` and no frame."""
    b = 2 + len(frame)
    stack = [0, NONE, *frame, *header(0, NONE, NONE, 0, len(heap), list(saved))]
    if older:
        b, stack = len(stack), stack + header(0, NONE, b, 0, len(heap), list(older))
    return image(header(len(frame), 0, b, 0, len(heap), list(args)), stack, list(heap), [])


# each kind of root, the first and the last of several, and cells counted from 1
THREE = [k(1), k(2), k(3)]
ask('root_first_argument', tiny([v(0), v(1), v(2)], THREE), 0)
ask('root_last_argument', tiny([v(0), v(1), v(2)], THREE), 2)
ask('root_argument_255', tiny([k(0)] * 254 + [v(0)], THREE), 0)
ask('root_first_cell', stacked([], THREE, frame=[v(0), v(1), v(2)]), 0)
ask('root_last_cell', stacked([], THREE, frame=[v(0), v(1), v(2)]), 2)
ask('root_first_saved_argument', stacked([], THREE, saved=[v(0), v(1), v(2)]), 0)
ask('root_last_saved_argument', stacked([], THREE, saved=[v(0), v(1), v(2)]), 2)
ask('root_of_the_newer_choice_point', stacked([], THREE, saved=[v(0)], older=[v(1)]), 1)
ask('root_of_the_older_choice_point', stacked([], THREE, saved=[v(0)], older=[v(1)]), 0)
ask('root_in_a_frame_below_another', tiny([], THREE, stack=[0, NONE, k(0), v(1), 2, 0, v(0)], e=4, size=1), 1)
ask('root_in_a_choice_points_frame', image(header(0, NONE, 4, 0, 3), [0, NONE, k(0), v(2)] + header(2, 0, NONE, 0, 3), THREE, []), 2)
ask('root_in_a_frame_seen_small_then_large', image(header(1, 0, 4, 0, 3), [0, NONE, v(0), v(2)] + header(2, 0, NONE, 0, 3), THREE, []), 2)

# ties
ask('tie_first_of_several_arguments', tiny([k(0), v(1), v(0), v(1)], [v(2), v(2), k(1)]), 2)
ask('tie_first_of_several_cells', stacked([k(0)], THREE, frame=[k(0), v(2), v(2)], saved=[v(2)]), 2)
ask('tie_first_of_several_saved_arguments', stacked([], THREE, saved=[k(0), v(2), v(2)], older=[v(2)]), 2)
ask('tie_older_choice_point_stands_lower', stacked([], THREE, saved=[v(1)], older=[v(1)]), 1)
ask('tie_control_before_stack', stacked([k(0), v(1)], [v(2), v(2), k(1)], frame=[v(0)], saved=[v(0)]), 2)
ask('tie_lower_root_before_lower_cells', tiny([v(3), v(0)], [v(4), k(0), k(0), v(4), k(1)]), 4)
ask('tie_at_the_first_cell', tiny([li(1)], [k(0), v(3), v(3), k(1)]), 3)
ask('tie_at_the_first_cell_of_a_structure', tiny([st(0)], [functor(7, 4), k(0), v(5), v(5), v(5), k(1)]), 5)
ask('tie_deep', tiny([v(0)], [li(4), k(0), v(7), v(7), v(3), v(2), k(0), k(1)]), 7)
ask('tie_first_cell_before_deeper_ones', tiny([li(0)], [v(4), v(2), v(5), k(0), v(5), k(2)]), 5)
ask('tie_last_step', tiny([v(0)], [li(3), k(0), k(0), li(5), li(5), k(1), k(2)]), 6)
ask('shortest_through_the_last_root', stacked([v(0)], [v(1), v(2), v(3), k(1)], frame=[v(1)], saved=[k(0), v(2)]), 3)
ask('shortest_not_through_the_lowest_cell', tiny([li(0)], [v(2), v(3), v(3), k(1)]), 3)

# what refers to what
TERMS = [li(2), st(4), k(1), v(6), functor(5, 2), k(2), v(7), v(7), k(3)]
ask('list_first_cell', tiny([v(0), v(1)], TERMS), 2)
ask('list_second_cell', tiny([v(0), v(1)], TERMS), 3)
ask('structure_functor', tiny([v(0), v(1)], TERMS), 4)
ask('structure_first_argument', tiny([v(0), v(1)], TERMS), 5)
ask('structure_last_argument', tiny([v(0), v(1)], TERMS), 6)
ask('structure_past_the_last_argument', tiny([v(1)], TERMS), 8)
ask('structure_of_255_arguments', tiny([st(0)], [functor(1048575, 255)] + [k(i) for i in range(255)] + [k(9)]), 255)
ask('var_to_var_to_var', tiny([v(3)], [k(268435455), v(0), v(1), v(2)]), 0)
ask('unbound_and_held', tiny([v(1)], [k(1), v(1)]), 1)
ask('unbound_and_dead', tiny([v(0)], [k(1), v(1)]), 1)
ask('cycle_around', tiny([v(1)], [v(1), v(2), v(3), v(1), v(4)]), 3)
ask('cycle_from_outside', tiny([v(1)], [v(1), v(2), v(3), v(1), v(4)]), 0)
ask('cycle_of_dead_cells', tiny([k(0)], [v(1), v(2), v(0)]), 2)
ask('cycle_of_lists', tiny([li(0)], [li(0), li(2), li(0), li(1)]), 3)
ask('structure_in_itself', 'structure_in_itself', 0)
ask('stack_to_stack_adds_nothing', stacked([s(2)], [k(1), k(2)], frame=[v(0), s(2)], saved=[s(3)]), 0)
ask('dead_but_a_trail_entry', tiny([v(1)], [k(1), k(2)], trail=[0]), 0)
ask('dead_but_a_word_without_role_names_it', tiny([], [k(1)], stack=[v(0)]), 0)
ask('dead_argument_of_a_structure', 'one_argument_is_no_structure', 2)
for asked in range(9):
    ask('night_a_%d' % asked, night_a, asked)
LONGEST = [v(i + 1) for i in range(2047)] + [k(1)]
ask('longest_chain', tiny([v(0)], LONGEST), 2047)
ask('full_buffers', biggest, 2045)

# the index
ask('at_h', tiny([v(0)], THREE), 3)
ask('just_below_h', tiny([v(0), li(1)], THREE), 2)
ask('above_h', tiny([v(0)], THREE), 4)
ask('nothing_in_it', 'nothing_in_it', 0)
ask('largest_index', night_a, NONE)
ask('leading_zero', night_a, '08')
ask('many_leading_zeros', night_a, '0' * 100 + '8')
ask('zeros_alone', tiny([v(0)], THREE), '0' * 30)
ask('leading_zeros_before_the_largest', night_a, '0' * 40 + str(NONE))

# refused images; these come before 18
ask('refused_3', 'frame_its_own_parent', 0)
ask('refused_4', 'two_frames_overlap', 0)
ask('refused_5_heap', 'bit_in_heap', 0)
ask('refused_5_stack', 'bit_in_stack_frame', 0)
ask('refused_5_control', 'bit_in_control', 0)
ask('refused_6_heap', 'reference_in_heap', 0)
ask('refused_6_stack', 'reference_in_stack', 0)
ask('refused_6_control', 'reference_in_control', 0)
ask('refused_7', 'entry_at_h', 0)
ask('refused_17_heap', 'functor_named_by_var_in_heap', 0)
ask('refused_17_trail', 'functor_named_by_entry', 0)
ask('refused_5_before_18', 'bit_in_heap', 99)
ask('refused_17_before_18', 'functor_named_by_entry', NONE)

# bad files; these come before all refusals of an image
ask('file_empty', b'', 0)
ask('file_cut', night_a[:120], 0)
ask('file_other_kind', night_a[:57] + b'\xff', 0)
ask('file_count_above_room', record(1, 7, 0, 2049, 0), 0)
ask('file_byte_after_the_end', night_a + b'\x00', 0)
ask('file_byte_after_the_longest', biggest + b'\x00', 0)
ask('file_counts_differ', 'counts_differ_in_h', 0)
ask('file_before_18', night_a[:177], NONE)

# bad arguments; these come before all, whatever the file
ask('argument_none', night_a)
ask('argument_two', night_a, 8, 8)
ask('argument_three', night_a, 1, 2, 3)
ask('argument_empty', night_a, '')
ask('argument_empty_twice', night_a, '', '')
ask('argument_and_an_empty_one', night_a, 8, '')
ask('argument_letters', night_a, 'eight')
ask('argument_letter_after', night_a, '8a')
ask('argument_letter_before', night_a, 'a8')
ask('argument_minus', night_a, '-8')
ask('argument_minus_0', night_a, '-0')
ask('argument_plus', night_a, '+8')
ask('argument_blank_before', night_a, ' 8')
ask('argument_blank_after', night_a, '8 ')
ask('argument_blank_alone', night_a, ' ')
ask('argument_hexadecimal', night_a, '0x8')
ask('argument_point', night_a, '8.0')
ask('argument_byte_before_0', night_a, '8/')
ask('argument_byte_after_9', night_a, '8:')
ask('argument_other_digits', night_a, '\u0668')
ask('argument_4294967296', night_a, 1 << 32)
ask('argument_4294967304', night_a, (1 << 32) + 8)
ask('argument_9_digits_more', night_a, '99999999999')
ask('argument_18446744073709551624', night_a, (1 << 64) + 8)
ask('argument_2_to_the_128_and_8', night_a, (1 << 128) + 8)
ask('argument_300_digits', night_a, '9' * 300)
ask('argument_bad_and_file_bad', b'', 'x')
ask('argument_bad_and_image_refused', 'bit_in_heap', '')
ask('argument_none_and_file_bad', night_a[:50])


def main():
    expected, folder = sys.argv[1:3]
    assert len(set(name for name, _, _ in ASKED)) == len(ASKED)
    os.makedirs(folder, exist_ok=True)
    for old in os.listdir(folder):
        os.remove(os.path.join(folder, old))
    for name, data, arguments in ASKED:
        path = os.path.join(folder, 'why_' + name)
        open(path + '.freeze', 'wb').write(data)
        open(path + '.args', 'wb').write(''.join(a + '\n' for a in arguments).encode())
        text = subprocess.run([expected, 'why'] + arguments, input=data, capture_output=True, check=True).stdout
        open(path + '.txt', 'wb').write(text)
    print(len(ASKED), 'questions,', sum(len(data) for _, data, _ in ASKED), 'bytes')


if __name__ == '__main__':
    main()
