#!/usr/bin/env python3
"""Writes the freeze files of crates/shows, its args, and its stdout as the independent model says it.
Use: make_shows.py EXPECTED CRATES, EXPECTED being the model's program."""
import os, struct, subprocess, sys

NONE = 4294967295
BASE = 134217728


def v(a): return a * 16
def s(i): return (BASE + i) * 16
def st(a): return a * 16 + 4
def li(a): return a * 16 + 8
def k(x): return x * 16 + 12
def functor(name, arity): return k(name * 256 + arity)


def header(size, e, b, t, h, args=()):
    return [1, size, e, b, t, h, len(args)] + list(args)


def record(kind, *words):
    return bytes([kind]) + b''.join(struct.pack('<I', w) for w in words)


def image(control, stack, heap, trail, counts=None):
    areas = [control, stack, heap, trail]
    body = record(1, *(counts or [len(a) for a in areas]))
    for kind, area in zip((2, 3, 4, 5), areas):
        body += b''.join(record(kind, w) for w in area)
    return body + record(6)


def tiny(args, heap, stack=(), trail=(), e=NONE, size=0, b=NONE):
    return image(header(size, e, b, len(trail), len(heap), args), list(stack), list(heap), list(trail))


FILES = []


def add(name, data):
    FILES.append((name + '.freeze', data))


# settled examples
NIGHT = dict(
    control=[1, 258, 0, 4, 3, 9, 1, 2147483696],
    stack=[0, NONE, 20, 108, 2, 258, 0, NONE, 0, 5, 1, 48],
    heap=[124, 20524, 96, 156, 112, 28, 120, 76, 12],
    trail=[2, 4, 134217731])


def night(**change):
    return image(**{**NIGHT, **change})


night_a = night()
assert len(night_a) == 178
add('night_a', night_a)
add('night_a_collected', image([1, 258, 0, 4, 2, 6, 1, 2147483696], [0, NONE, 4, 108, 2, 258, 0, NONE, 0, 3, 1, 32], [20524, 48, 156, 72, 76, 12], [1, 134217731]))
add('night_a_stepped_back', image([2, 258, 0, NONE, 0, 5, 1, 48], [0, NONE, 20, s(3)] + NIGHT['stack'][4:], [124, 20524, v(2), 156, v(4)], []))
add('night_a_collected_stepped_back', image([2, 258, 0, NONE, 0, 3, 1, 32], [0, NONE, 4, s(3), 2, 258, 0, NONE, 0, 3, 1, 32], [20524, v(1), 156], []))
add('nothing_in_it', tiny([], []))
add('list_at_h_less_1', tiny([li(1)], [k(1), k(2)]))
add('list_at_h_less_2', tiny([li(0)], [k(1), k(2)]))
add('arity_0', tiny([st(0)], [functor(5, 0)]))
add('night_a_entry_on_a_field', night(trail=[2, 134217732, 134217731]))
add('night_a_entry_9', night(trail=[2, 9, 134217731]))
add('equal_entries_kept', tiny([v(0)], [k(1), k(2)], trail=[0, 1, 0]))
add('equal_entries_dropped', tiny([v(1)], [k(1), k(2)], trail=[0, 1, 0]))
add('empty_file', b'')

# refusal 3: chains
add('frame_ends_at_the_stack', tiny([], [k(1)], stack=[0, NONE, v(0)], e=0, size=1))
add('frame_ends_past_the_stack', tiny([], [k(1)], stack=[0, NONE, v(0)], e=0, size=2))
add('frame_ends_at_the_choice_point', image(header(0, NONE, 3, 0, 1), [0, NONE, v(0)] + header(1, 0, NONE, 0, 1), [k(1)], []))
add('frame_ends_past_the_choice_point', image(header(0, NONE, 3, 0, 1), [0, NONE, v(0)] + header(2, 0, NONE, 0, 1), [k(1)], []))
add('frame_ends_at_the_child', tiny([], [k(1)], stack=[0, NONE, v(0), 1, 0], e=3))
add('frame_ends_past_the_child', tiny([], [k(1)], stack=[0, NONE, v(0), 2, 0], e=3))
add('frame_its_own_parent', tiny([], [], stack=[0, 0], e=0))
add('frame_in_an_empty_stack', tiny([], [], e=4294967294))
add('choice_point_ends_at_the_stack', tiny([], [k(1)], stack=header(0, NONE, NONE, 0, 1, [v(0)]), b=0))
add('choice_point_ends_past_the_stack', tiny([], [k(1)], stack=header(0, NONE, NONE, 0, 1, [v(0)])[:7], b=0))
add('choice_point_ends_past_the_newer', tiny([], [k(1)], stack=header(0, NONE, NONE, 0, 1, [v(0)])[:7] + header(0, NONE, 0, 0, 1), b=7))
add('choice_point_its_own_parent', tiny([], [], stack=header(0, NONE, 0, 0, 0), b=0))
add('choice_point_at_the_far_end', tiny([], [], stack=header(0, NONE, NONE, 0, 0), b=4294967289))
add('choice_point_n_255', tiny([], [k(1)], stack=header(0, NONE, NONE, 0, 1, [v(0)] * 255), b=0))
add('choice_point_n_256', tiny([], [k(1)], stack=header(0, NONE, NONE, 0, 1, [v(0)] * 256), b=0))
add('choice_point_n_at_the_far_end', tiny([], [], stack=[1, 0, NONE, NONE, 0, 0, 4294967289], b=0))
add('choice_point_t_above', tiny([], [k(1)], stack=header(0, NONE, NONE, 2, 1), b=0, trail=[0]))
add('choice_point_h_above', tiny([], [k(1)], stack=header(0, NONE, NONE, 0, 2), b=0))
add('choice_points_t_and_h_equal', tiny([v(0)], [k(1), k(2)], stack=header(0, NONE, NONE, 1, 1) + header(0, NONE, 0, 1, 1), b=7, trail=[0]))
add('choice_points_t_and_h_fall', tiny([v(0)], [k(1), k(2)], stack=header(0, NONE, NONE, 1, 2) + header(0, NONE, 0, 0, 1), b=7, trail=[0]))

# refusal 3: which of several faults is named. The old frame at 2, b2 at 4, the middle frame at 11, b1 at 13, the control's frame of one cell at 20
CHAINS = dict(
    control=header(1, 20, 13, 1, 1),
    stack=[9, 9, 0, NONE] + header(0, 2, NONE, 1, 1) + [0, 2] + header(0, 11, 4, 1, 1) + [0, 11, v(0)])


def chains(e=20, size=1, b=13, **words):
    # the words are changed by name: b1_t is b1's T, middle_ce the middle frame's CE
    starts = dict(old=2, b2=4, middle=11, b1=13, frame=20)
    fields = dict(cl=0, ce=1, l=1, e=2, b=3, t=4, h=5, n=6)
    stack = list(CHAINS['stack'])
    for name, word in words.items():
        start, field = name.split('_')
        stack[starts[start] + fields[field]] = word
    return image([1, size, e, b] + CHAINS['control'][4:], stack, [k(1)], [0])


add('chains_whole', chains())
add('newer_frame_at_500_and_older_t_above', chains(b1_e=500, b2_t=2))
add('control_frame_and_newest_t_above', chains(e=500, b1_t=2))
add('control_second_frame_and_newest_n_256', chains(frame_ce=600, b1_n=256))
add('newest_h_above_and_its_frame', chains(b1_h=2, b1_e=500))
add('newest_and_older_t_above', chains(b1_t=2, b2_t=3))
add('older_h_above', chains(b2_h=2))
add('older_n_t_and_h_wrong_and_its_frame', chains(b2_n=300, b2_t=2, b2_h=2, b2_e=500))
add('older_frame_at_the_far_end', chains(b2_e=4294967294))
add('older_frame_too_long', chains(b2_l=1))
add('middle_frame_its_own_parent', chains(middle_ce=11))
add('choice_point_its_own_frame', chains(b1_e=13))
add('older_choice_point_its_own_parent', chains(b2_b=4))
add('older_choice_point_at_the_stack', chains(b1_b=23))
add('frame_at_the_stack', chains(e=23))
add('frame_seen_before_then_too_long', chains(b1_e=2, b1_l=10))
add('frame_seen_before_then_too_long_for_the_child', chains(e=2, size=0, middle_cl=8))
add('frame_broken_only_in_its_older_view', chains(b1_e=20, b1_l=1))
add('choice_point_past_the_far_end', tiny([], [], b=4294967294))
add('frame_and_choice_point_past_the_far_end', tiny([], [], e=4294967293, b=4294967294))

# refusal 4: two roles
add('two_frames_overlap', image(header(2, 0, 5, 0, 1), [0, NONE, v(0), NONE, 0] + header(0, 2, NONE, 0, 1), [k(1)], []))
add('frame_over_choice_point', tiny([], [k(1)], stack=[0, NONE] + header(0, NONE, NONE, 0, 1), e=0, size=1, b=2))
add('frame_beside_choice_point', tiny([], [k(1)], stack=[0, NONE] + header(0, NONE, NONE, 0, 1), e=0, size=0, b=2))
add('frame_over_two_choice_points', chains(e=2, size=19))
add('frame_seen_small_then_over_choice_point', chains(b1_e=2, b1_l=9))
add('frame_at_a_choice_point', tiny([], [], stack=header(NONE, NONE, NONE, 0, 0), e=0, b=0))
# the control's frames at 21 and 2 stand on b1's saved arguments and on cells of b2's frame
TWICE = [0, NONE, k(6), NONE, k(7)] + header(3, 0, NONE, 0, 0, [k(1), k(2)]) + header(0, NONE, 5, 0, 0, [0, 2, k(5)])
add('two_conflicts', tiny([], [], stack=TWICE, e=21, b=14))
add('two_conflicts_the_upper_alone', tiny([], [], stack=TWICE[:22] + [NONE, k(5)], e=21, b=14))
add('two_conflicts_and_a_broken_chain', tiny([], [], stack=TWICE[:7] + [700] + TWICE[8:], e=21, b=14))

# refusal 5: bits, in each area that can be named, and before any 6
add('bit_in_heap', tiny([v(0)], [k(1), k(2) + 1, k(3) + 2]))
add('bit_in_stack_frame', tiny([], [k(1)], stack=[0, NONE, v(0), v(0) + 2], e=0, size=2))
add('bit_in_stack_argument', tiny([], [k(1)], stack=header(0, NONE, NONE, 0, 1, [v(0), k(9) + 3]), b=0))
add('bit_in_control', tiny([v(0), k(1) + 1], [k(1)]))
add('bit_in_control_before_reference_in_heap', tiny([v(0), k(1) + 1], [v(1)]))
add('bits_in_a_word_without_role', tiny([v(0)], [k(1)], stack=[k(7) + 3, 12345]))

# refusal 6: references, in each area that can be named, and before any 7
add('reference_in_heap', tiny([k(1)], [k(1), v(2)]))
add('reference_in_heap_to_the_stack', tiny([], [s(2)], stack=[0, NONE, k(1)], e=0, size=1))
add('structure_ends_at_h', tiny([st(0)], [functor(5, 2), k(1), k(2)]))
add('structure_ends_past_h', tiny([st(0)], [functor(5, 3), k(1), k(2)]))
add('structure_without_functor', tiny([st(0)], [v(1), k(1), k(2)]))
add('reference_in_stack', tiny([], [k(1)], stack=[0, NONE, v(0), v(1)], e=0, size=2))
add('stack_var_names_itself', tiny([], [], stack=[0, NONE, s(2), k(1)], e=0, size=2))
add('stack_var_names_a_later_word', tiny([], [], stack=[0, NONE, s(3), k(1)], e=0, size=2))
add('reference_in_control', tiny([v(0), v(1)], [k(1)]))
add('control_var_names_a_stack_cell', tiny([s(2)], [], stack=[0, NONE, k(1)], e=0, size=1))
add('control_var_names_a_word_without_role', tiny([s(2)], [], stack=[0, NONE, k(1)], e=0, size=0))
add('reference_in_control_before_entry', tiny([v(1)], [k(1)], trail=[9]))

# refusal 7: trail entries
add('entry_at_h', tiny([], [k(1)], trail=[0, 1]))
add('entry_at_h_less_1', tiny([], [k(1), k(2)], trail=[0, 1]))
add('entry_on_a_frame_field', tiny([], [], stack=[0, NONE, k(1)], e=0, size=1, trail=[BASE + 2, BASE + 1]))
add('entry_past_the_counted_stack', tiny([], [], stack=[5, 6], trail=[BASE + 1, BASE + 2]))
add('entry_on_a_word_without_role', tiny([], [], stack=[5, 6], trail=[BASE, BASE + 1]))

# refusal 17: f5/1 at 2 is what the STRUCT in the dead cell 5 refers to, f6/2 at 0 only looks like a functor
NAMED = [functor(6, 2), k(1), functor(5, 1), k(2), k(3), st(2)]
for name, word in (('var', v(2)), ('list_from', li(2)), ('list_before', li(1)), ('struct', st(0))):
    add('functor_named_by_%s_in_heap' % name, tiny([], NAMED[:4] + [word] + NAMED[5:]))
    add('functor_named_by_%s_in_stack' % name, tiny([], NAMED, stack=[0, NONE, word], e=0, size=1))
    add('functor_named_by_%s_in_control' % name, tiny([k(1), word], NAMED))
add('functor_named_by_entry', tiny([], NAMED, trail=[1, 2]))
add('functor_named_by_entry_after_entry_at_h', tiny([], NAMED, trail=[2, 6]))
add('functor_named_of_no_struct', tiny([v(0), li(0)], NAMED, trail=[0]))
add('functor_named_of_a_dead_struct', tiny([], [functor(5, 1), k(1), st(0), v(0)]))
add('functor_named_of_words_without_role', tiny([v(0)], [functor(5, 1), k(1)], stack=[st(0)]))
add('functor_not_named', tiny([v(1), v(3), li(3), st(2), st(2)], NAMED, trail=[1, 3]))
add('structures_overlap', tiny([st(0), st(1)], [functor(5, 2), functor(6, 1), k(1)]))
add('structures_side_by_side', tiny([st(0), st(2)], [functor(5, 1), k(1), functor(6, 1), k(2)]))
add('structure_in_itself', tiny([st(0)], [functor(5, 1), st(0)]))

# file faults
add('cut_in_the_counts', night_a[:16])
add('cut_after_the_counts', night_a[:17])
add('cut_in_a_control_word', night_a[:19])
add('cut_in_a_heap_word', night_a[:120])
add('cut_in_the_last_trail_word', night_a[:176])
add('cut_before_the_end', night_a[:177])
add('other_kind_first', b'\x02' + night_a[1:])
add('kind_0_first', b'\x00')
add('kind_255_in_the_stack', night_a[:57] + b'\xff')
add('one_control_word_too_few', image(NIGHT['control'], NIGHT['stack'], NIGHT['heap'], NIGHT['trail'], [9, 12, 9, 3]))
add('one_heap_word_too_many', image(NIGHT['control'], NIGHT['stack'], NIGHT['heap'], NIGHT['trail'], [8, 12, 8, 3]))
add('end_before_the_trail', night_a[:162] + record(6))
add('control_count_263', record(1, 263, 0, 0, 0))
add('stack_count_1025', record(1, 7, 1025, 0, 0))
add('heap_count_2049', record(1, 7, 0, 2049, 0))
add('trail_count_513', record(1, 7, 0, 0, 513))
add('byte_after_the_end', night_a + b'\x00')
add('counts_differ_in_n', image([1, 0, NONE, NONE, 0, 0, 1], [], [], []))
add('counts_differ_in_h', image(header(0, NONE, NONE, 0, 1), [], [], []))
add('counts_differ_in_t', image(header(0, NONE, NONE, 1, 0), [], [], []))
add('control_count_6', image([1, 0, NONE, NONE, 0, 0], [], [], []))
add('control_count_0', image([], [], [], []))
add('byte_after_the_end_before_counts_differ', image(header(0, NONE, NONE, 1, 0), [], [], []) + b'\x06')

# full buffers
add('n_255', tiny([v(i % 3) for i in range(255)], [k(i) for i in range(4)]))


def full(**change):
    # a list of every other pair, frames of 14 cells one on another, and entries all over the heap
    heap = [li(4 * (i // 4) + 4) if i % 4 == 1 and i + 3 < 2048 else k(i) for i in range(2048)]
    stack = []
    for f in range(64):
        stack += [14, (f - 1) * 16 if f else NONE] + [v(2047 - f) if j == 0 else s(f * 16 + 2) if j == 1 else k(j) for j in range(14)]
    control = header(14, 63 * 16, NONE, 512, 2048, [li(0), v(2046)] + [k(i) for i in range(253)])
    return image(control, stack, heap, [BASE + i if i % 3 == 0 and i % 16 > 1 else i * 4 % 2048 for i in range(512)])


def largest():
    # the longest listing that is kept whole: eight structures of 255 arguments, three frames of 255 cells, ten digits nearly everywhere
    heap = [functor(1048575, 255) if i % 256 == 0 else k(268435455 - i) for i in range(2048)]
    stack = []
    for f in range(3):
        stack += [4294967295, (f - 1) * 257 if f else NONE] + [k(268435455 - j) for j in range(255)]
    stack += [4294967295 - i for i in range(253)]
    roots = [st(256 * i) for i in range(8)] + [k(268435455 - i) for i in range(247)]
    trail = [BASE + 2 + i % 255 for i in range(512)]
    return image(header(4294967295, 2 * 257, NONE, 512, 2048, roots), stack, heap, trail)


biggest = full()
assert len(biggest) == 19248
add('full_buffers', biggest)
add('full_buffers_and_a_byte', biggest + b'\x00')
add('full_buffers_cut', biggest[:-1])
add('long_numbers', largest())

# errors that look right
add('one_argument_is_no_structure', tiny([v(1)], [functor(5, 2), k(7), k(8)]))
add('pair_inside_a_structure', tiny([li(2)], [functor(5, 4), k(1), k(2), k(3), k(4)]))
add('var_and_struct_at_one_functor', tiny([v(0), st(0)], [functor(5, 1), li(2), k(1), k(2)]))
add('var_alone_at_a_functor', tiny([v(0)], [functor(5, 1), li(2), k(1), k(2)]))
for small, large in ((0, 0), (0, 1), (1, 2), (2, 1)):
    add('shared_frame_seen_%d_then_%d' % (small, large), image(header(small, 0, 4, 0, 2), [0, NONE, v(0), v(1)] + header(large, 0, NONE, 0, 0), [k(1), k(2)], []))
add('shared_frame_further_down', image(header(0, 13, 6, 0, 2), [0, NONE, v(0), v(1), 2, 0] + header(0, 4, NONE, 0, 0) + [0, 0], [k(1), k(2)], []))
for h in range(5):
    add('boundary_at_%d' % h, image(header(0, NONE, 0, 0, 4, [v(0), v(2)]), header(0, NONE, NONE, 0, h), [k(1), k(2), k(3), k(4)], []))
add('entry_of_a_dead_cell', image(header(0, NONE, 0, 1, 2, []), header(0, NONE, NONE, 0, 2, [v(1)]), [v(1), k(7)], [0]))
add('entry_of_a_dead_cell_undone', image([1, 0, NONE, NONE, 0, 1, 1, v(0)], header(0, NONE, NONE, 0, 1, [v(0)]), [k(7)], []))


def main():
    expected, crates = sys.argv[1:3]
    shows = os.path.join(crates, 'shows')
    data = os.path.join(shows, 'data')
    os.makedirs(data, exist_ok=True)
    for old in os.listdir(data):
        os.remove(os.path.join(data, old))
    assert len(set(name for name, _ in FILES)) == len(FILES)
    text = b''
    for name, body in FILES:
        path = os.path.join(data, name)
        open(path, 'wb').write(body)
        text += name.encode() + b'\n' + subprocess.run([expected, path], capture_output=True, check=True).stdout
    open(os.path.join(shows, 'args'), 'w').write(''.join(name + '\n' for name, _ in FILES))
    open(os.path.join(shows, 'stdout'), 'wb').write(text)
    show = os.path.join(crates, 'show')
    open(os.path.join(show, 'stdin'), 'wb').write(night_a)
    print(len(FILES), 'files')


if __name__ == '__main__':
    main()
