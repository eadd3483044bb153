"""The files that are too large to store, and the folders of many files: each is made anew, by a formula, where a case needs it."""
import os

COMMAND = 16777216
NAME = 255
COMMANDS = 1048576


def command_of(size):
    """One command of that many bytes, from its first letter to its dot."""
    front, back = b'a :', b'Type.'
    return front + b' ' * (size - len(front) - len(back)) + back + b'\n'


def commands(number):
    """That many declarations, ten on a line."""
    texts = [b'x%d : Type.' % place + (b'\n' if place % 10 == 0 else b' ') for place in range(1, number + 1)]
    return b''.join(texts)


def queries(number):
    """That many queries, ten on a line."""
    return b''.join(b'#CHECK Type == Type.' + (b'\n' if place % 10 == 0 else b' ') for place in range(1, number + 1))


def open_comment(deep):
    """A comment that nests so deep, then a declaration."""
    return b'(;' * deep + b' x ' + b';)' * deep + b'\na : Type.\nb : (;;) a.\n'



def successors(number, inner):
    """The numeral that is so many more than another term."""
    return b's (' * number + inner + b')' * number


def deep_values(turns, step):
    """A function that adds `step` to its second argument in each of `turns` turns, so that evaluation makes a deep numeral."""
    rules = b'[n] f z n --> n\n[m, n] f (s m) n --> f m (' + successors(step, b'n') + b').\n'
    late = b'f (' + successors(turns - 1, b'z') + b') (' + successors(step, b'z') + b')'
    return (b'nat : Type.\nz : nat.\ns : nat -> nat.\ndef f : nat -> nat -> nat.\n' + rules
            + b'eq : nat -> nat -> Type.\nrefl : n : nat -> eq n n.\n'
            + b'thm t : eq (f (' + successors(turns, b'z') + b') z) (' + late + b') := refl (' + late + b').\n')


def levels_of(levels, head, arguments, argument):
    """So many levels of brackets, each the head of so many arguments."""
    return b'(' * levels + head + ((b' ' + argument) * arguments + b')') * levels


def chain(files, last):
    """So many files, each of which needs the next one, from main.dk on; and the text of the last one."""
    texts = {'main.dk': b'x : Type.\ny : m1.a.\n'}
    texts.update({'m%d.dk' % at: b'b : m%d.a.\na : Type.\n' % (at + 1) for at in range(1, files - 1)})
    texts['m%d.dk' % (files - 1)] = last
    return texts


def side_by_side(modules, main):
    """So many modules with a declaration each, and main.dk."""
    texts = {'m%d.dk' % at: b'a : Type.\n' for at in range(1, modules + 1)}
    texts['main.dk'] = main
    return texts


def requires(modules):
    return b''.join(b'#REQUIRE m%d.\n' % at for at in range(1, modules + 1))


FILES = {
    'brackets_1000': lambda: b'x : ' + b'(' * 1000 + b'Type' + b')' * 1000 + b'.\n',
    'brackets_1001': lambda: b'x : ' + b'(' * 1001 + b'Type' + b')' * 1001 + b'.\n',
    'brackets_1001_open': lambda: b'x : ' + b'(' * 1001,
    'open_brackets_1000': lambda: b'x : a' + b' (' * 1000,
    'open_brackets_1001': lambda: b'x : a' + b' (' * 1001,
    'open_arrows_1000': lambda: b'x : a' + b' -> a' * 1000,
    'open_arrows_1001': lambda: b'x : a' + b' -> a' * 1001,
    'open_arguments_1000': lambda: b'x : a' + b' a' * 1000,
    'open_arguments_1001': lambda: b'x : a' + b' a' * 1001,
    'open_bracketed_1000': lambda: b'x : a' + b' (a)' * 1000,
    'open_bracketed_1001': lambda: b'x : a' + b' (a)' * 1001,
    'brackets_in_body_1001': lambda: b'a : Type.\nx : a.\nthm t : a :=\n' + b'(' * 1001 + b'x' + b')' * 1001 + b'.\n',
    'brackets_twice_1000': lambda: (b'a : Type.\nx : a.\nthm t : ' + b'(' * 1000 + b'a' + b')' * 1000 + b' := '
                                    + b'(' * 1000 + b'x' + b')' * 1000 + b'.\n'),
    'name_255': lambda: b'n' * NAME + b' : Type.\n',
    'name_256': lambda: b'n' * (NAME + 1) + b' : Type.\n',
    'quoted_name_255': lambda: b'{|' + b'n' * NAME + b'|} : Type.\n',
    'quoted_name_256': lambda: b'a : Type.\n{|' + b'n' * (NAME + 1) + b'|} : Type.\n',
    'module_256': lambda: b'a : Type.\n\nx : ' + b'm' * (NAME + 1) + b'.a.\n',
    'parts_255': lambda: b'a : Type.\nx : ' + b'm' * NAME + b'.' + b'n' * NAME + b'.\n',
    'command_at_limit': lambda: command_of(COMMAND),
    'command_past_limit': lambda: command_of(COMMAND + 1),
    'commands_at_limit': lambda: commands(COMMANDS),
    'commands_past_limit': lambda: commands(COMMANDS) + b'\nx1 : unknown.\n',
    'queries_past_limit': lambda: queries(COMMANDS) + b'\n#ASSERT unknown == unknown.\n',
    'comment_100000_deep': lambda: open_comment(100000),
    'arrows_1000': lambda: b'a : Type.\nf : ' + b'a -> ' * 1000 + b'a.\n',
    'arrows_1001': lambda: b'a : Type.\nf : ' + b'a -> ' * 1001 + b'a.\n',
    'arguments_1000': lambda: (b'a : Type.\nx : a.\nf : ' + b'a -> ' * 1000 + b'a.\nthm t : a := f' + b' x' * 1000 + b'.\n'),
    'arguments_1001': lambda: b'a : Type.\nx : a.\nf : a -> a.\nthm t : a := f' + b' x' * 1001 + b'.\n',
    'rule_levels_1000': lambda: (b'a : Type.\ndef f : a -> a.\n[x : ' + b'(' * 1000 + b'a' + b')' * 1000 + b'] f ' + b'(' * 1000 + b'x'
                                 + b')' * 1000 + b' --> ' + b'(' * 1000 + b'x' + b')' * 1000 + b'.\n'),
    'rule_levels_1001': lambda: b'a : Type.\ndef f : a -> a.\n[x] f ' + b'(' * 1001 + b'x' + b')' * 1001 + b' --> x.\n',
    'values_45000_deep': lambda: deep_values(50, 900),
    'arguments_of_10_levels': lambda: b'a : Type. z : a.\nx : ' + levels_of(10, b'z', 1000, b'z') + b'.\n',
    'arguments_of_1000_levels': lambda: b'a : Type. z : a.\nx : ' + levels_of(1000, b'z', 1000, b'z') + b'.\n',
    'typed_arguments_of_100_levels': lambda: (b'a : Type. z : a. def t : Type. f : t.\n[] t --> a -> t.\nP : t -> Type.\nx : P '
                                              + levels_of(100, b'f', 1000, b'z') + b'.\n'),
    'left_arguments_of_900_levels': lambda: (b'a : Type. z : a. def f : a -> a.\n[] ' + levels_of(900, b'f', 1000, b'z')
                                             + b' --> z.\n'),
    'module_name_255': lambda: {'main.dk': b'a : Type.\nx : ' + b'm' * NAME + b'.' + b'n' * NAME + b'.\n'},
    'files_64': lambda: chain(64, b'a : Type.\n'),
    'files_65': lambda: chain(65, b'a : Type.\n'),
    'files_64_missing': lambda: chain(64, b'b : Type.\na : gone.b.\n'),
    'files_64_open': lambda: chain(64, b'b : Type.\na : m7.b.\n'),
    'files_64_read': lambda: {**chain(64, b'c : early.b.\na : Type.\n'), 'main.dk': b'#REQUIRE early.\nx : Type.\n#REQUIRE m1.\ny : m63.a.\n',
                              'early.dk': b'b : Type.\n'},
    'modules_1000': lambda: side_by_side(1000, requires(1000) + b'#REQUIRE m1.\nx : Type.\ny : m1000.a -> main.x.\n'),
    'modules_1001': lambda: side_by_side(1001, requires(1000) + b'x : m1.a.\ny : m2.a -> m1001.a.\n'),
    'modules_1001_missing': lambda: side_by_side(1000, requires(1000) + b'#REQUIRE gone.\n'),
    'modules_1001_below': lambda: {**side_by_side(1000, requires(999) + b'x : m1000.b.\n'), 'm1000.dk': b'a : Type.\n\nb : m1.a -> extra.a.\n',
                                   'extra.dk': b'a : Type.\n'},
    'modules_1001_and_files_65': lambda: {**chain(64, b'a : extra.a.\n'), **{'n%d.dk' % at: b'' for at in range(937)},
                                          'main.dk': b''.join(b'#REQUIRE n%d.' % at for at in range(937)) + b'\nx : m1.a.\n'},
    'odd_modules': lambda: {'main.dk': b"x : 0.a.\ny : m'.a.\nz : !?.a.\nw : __.a.\n",
                            **{name + '.dk': b'a : Type.\nx : a.\n' for name in ('0', "m'", '!?', '__')}},
    'small_and_large': lambda: {'main.dk': b'x : m.a.\ny : M.b.\n', 'm.dk': b'a : Type.\n', 'M.dk': b'b : Type.\n'},
    'folder_names': lambda: {'with blank/\u2115/main.dk': b'x : m.a.\n', 'with blank/\u2115/m.dk': b'a : Type.\nb : a.\nb : a.\n'},
    'commands_past_limit_in_modules': lambda: {'main.dk': b'x : Type.\n#REQUIRE m.\n#NAME late.\n(; 1,048,577 ;)\ny : m.x1.\n', 'm.dk': commands(COMMANDS - 1)},
    'patterns_1001': lambda: b'a : Type.\nx : a.\ndef f : a -> a.\n[] f' + b' x' * 1001 + b' --> x.\n',
}
LARGE = {'command_at_limit', 'command_past_limit', 'commands_at_limit', 'commands_past_limit', 'commands_past_limit_in_modules',
         'queries_past_limit', 'arguments_of_1000_levels', 'left_arguments_of_900_levels'}


def write(name, folder):
    """Writes the made file of that name, or the made folder with its files, into a folder."""
    text = FILES[name]()
    texts = {name + '.dk': text} if isinstance(text, bytes) else {name + '/' + file: it for file, it in text.items()}
    for file, it in texts.items():
        path = os.path.join(folder, file)
        os.makedirs(os.path.dirname(path), exist_ok=True)
        with open(path, 'wb') as out:
            out.write(it)
