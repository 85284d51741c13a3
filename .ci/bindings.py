"""Whether the ways in from C and Rust are the proved one: bindings/c/morelquilt.h and bindings/rust/morelquilt-sys against crates/board.

- Exports: the three have the same names, and each export the same parameters: names, order, types. A lent slice `x: &[u8]` of the
  source is a pointer `x` and a length `x_length` in the other two; a reference to an array, a pointer to a struct of such a layout.
- Structs: fields, order, widths and places are the same in C and Rust, without padding, and have the layout of the source's
  arrays and of its answer; a column's fields stand where `record_of` of crates/packed/specs puts them.
- Numbers: every enumerator of the header is a constant of the Rust; the refusals are those of crates/board_answer, the type
  bytes those of crates/column_type.
- Every `unsafe` of the safe crate says why it is sound.
- docs/BOARD.md names every export, and what stands at the lines of the Rust's files that it names.
"""
import re

PAGE = 'docs/BOARD.md'
SAFE = 'bindings/rust/morelquilt/src'
HEADER = 'bindings/c/morelquilt.h'
RUST = 'bindings/rust/morelquilt-sys/src/lib.rs'
SOURCE = 'crates/board/src'
WIDTHS = {'u8': 1, 'u16': 2, 'u32': 4, 'u64': 8, 'usize': 8}
C_NUMBERS = {'uint8_t': 'u8', 'uint16_t': 'u16', 'uint32_t': 'u32', 'uint64_t': 'u64', 'size_t': 'usize'}
KEYWORDS = {'type': 'ty'}       # a word of C that is none of Rust's names


def split(text):
    """The parts between commas, without those inside of brackets."""
    return [part.strip() for part in re.split(r',(?![^\[]*\])', text) if part.strip()]


def plain(name):
    return KEYWORDS.get(name, name)


# ---- the three, each as: export to its parameters (name, type), and struct to its fields (name, type); a type is a number's, or
# `const T` and `mut T` behind a pointer, where T is a number, an array `[u8; 16]` or a struct's name

def source(root):
    exports, structs = {}, {}
    text = ''.join(path.read_text() for path in sorted((root / SOURCE).glob('*.rt')))
    text = re.sub(r'(?m)//.*$', '', text)
    for name, inside, answer in re.findall(r'#\[unsafe\(no_mangle\)\]\s*pub extern "C" fn (\w+)\(([^)]*)\)\s*->\s*(\w+)', text):
        exports[name] = [parameter for one in split(inside) for parameter in of_source(*re.split(r'\s*:\s*', one, maxsplit=1))] + [('answer', answer)]
    if text.count('no_mangle') != len(exports):
        raise ValueError('%s: an export stands where it is not looked for' % SOURCE)
    for path in sorted(root.glob('crates/board*/src/*.rt')):
        structs.update(rust_structs(path.read_text()))
    return exports, structs


def of_source(name, kind):
    lent = re.fullmatch(r'&(mut )?(.*)', kind)
    if lent is None:
        return [(name, kind)]
    pointer = 'mut ' if lent[1] else 'const '
    slice_of = re.fullmatch(r'\[(\w+)\]', lent[2])
    return [(name, pointer + slice_of[1]), (name + '_length', 'usize')] if slice_of else [(name, pointer + lent[2])]


def header(text):
    text = re.sub(r'(?s)/\*.*?\*/', '', text)
    structs = {}
    for name, inside in re.findall(r'typedef struct (\w+) \{(.*?)\} \1;', text, re.S):
        structs[struct_name(name)] = [(plain(field), C_NUMBERS.get(kind) or struct_name(kind)) for kind, field in re.findall(r'(\w+) (\w+);', inside)]
    exports = {}
    for name, inside in re.findall(r'(?m)^morelquilt_counted (\w+)\(([^)]*)\);', text):
        exports[name] = [of_c(' '.join(one.split())) for one in split(inside)] + [('answer', 'Counted')]
    return exports, structs


def struct_name(name):
    return name.removeprefix('morelquilt_').capitalize()


def of_c(parameter):
    found = re.fullmatch(r'(const )?(\w+) (\*?)(\w+)(?:\[(\d+)\])?', parameter)
    if found is None:
        raise ValueError('%s: a parameter in another form: %s' % (HEADER, parameter))
    const, kind, pointer, name, count = found.groups()
    kind = C_NUMBERS.get(kind) or struct_name(kind)
    if count:
        kind = '[%s; %s]' % (kind, count)
    return plain(name), ('const ' if const else 'mut ') + kind if pointer or count else kind


def rust_structs(text):
    return {name: re.findall(r'pub (\w+): (\w+),', inside) for name, inside in re.findall(r'#\[repr\(C\)\]\s*(?:#\[[^\n]*\]\s*)?pub struct (\w+) \{(.*?)\}', text, re.S)}


def rust(text):
    exports = {}
    for name, inside, answer in re.findall(r'pub fn (\w+)\(([^)]*)\) -> (\w+);', text):
        parameters = [re.fullmatch(r'(\w+): (?:\*(const |mut ))?(.*)', one).groups() for one in split(inside)]
        exports[name] = [(parameter, (pointer or '') + kind) for parameter, pointer, kind in parameters] + [('answer', answer)]
    return exports, rust_structs(text)


# ---- layouts

def places(structs, kind):
    """The places of a struct's numbers: (place, width) each, by C's rules; then its size and alignment."""
    if kind in WIDTHS:
        return [(0, WIDTHS[kind])], WIDTHS[kind], WIDTHS[kind]
    if array := re.fullmatch(r'\[(\w+); (\d+)\]', kind):
        width = WIDTHS[array[1]]
        return [(i * width, width) for i in range(int(array[2]))], int(array[2]) * width, width
    found, end, widest = [], 0, 1
    for _, field in structs[kind]:
        inner, size, align = places(structs, field)
        end += -end % align
        found += [(end + place, width) for place, width in inner]
        end, widest = end + size, max(widest, align)
    return found, end + -end % widest, widest


def same_layout(structs, kind, other):
    """Whether a struct is what the source lends: number for number, or, behind bytes, of as many bytes without padding."""
    numbers, size, _ = places(structs, kind)
    wanted, wanted_size, _ = places({}, other)
    padded = sum(width for _, width in numbers) != size
    return size == wanted_size and not padded and (numbers == wanted or all(width == 1 for _, width in wanted))


def parameter_faults(where, structs, name, mine, proved):
    if [parameter for parameter, _ in mine] != [parameter for parameter, _ in proved]:
        yield '%s: %s has the parameters %s, and the source %s' % (where, name, ', '.join(n for n, _ in mine[:-1]), ', '.join(n for n, _ in proved[:-1]))
        return
    for (parameter, kind), (_, wanted) in zip(mine, proved):
        pointer, _, target = kind.rpartition(' ') if kind.rpartition(' ')[2] in structs else ('', '', '')
        same = wanted.startswith(pointer + ' ') and same_layout(structs, target, wanted[len(pointer) + 1:]) if pointer else kind == wanted
        if not same:
            yield '%s: %s of %s is %s, and in the source %s' % (where, parameter, name, kind, wanted)


# What the places of a record hold, in the words of `record_of` and of what it is made of: field, and how many bytes.
PLACES = re.compile(r'(type_byte) c\.type|\((collation_flag) .*? \+ schema_flag .*?\) ∷|low_bytes (\d) (?:c\.)?(\w+)|c\.(\w+) ∷|\b(0) ∷')
FIELDS = {'type_byte': 'ty', 'collation_flag': 'flags', 'info': 'collation', '0': 'zero', 'index': 'names'}


def record_places(root):
    """The fields of a column's record, with their widths, by the definition."""
    text = (root / 'crates/packed/specs/Packed.antt').read_text()
    body = ' '.join(re.search(r'(?m)^record_of c index =\n((?: +.*\n)+)', text)[1].split())
    for part in ('collation_places', 'index_places'):
        present = re.search(r'(?m)^%s \(Some \w+\)(?: index)? = (.*)$' % part, text)[1]
        body = re.sub(r'%s c\.\w+(?: index)?' % part, lambda _: present, body)
    found = []
    for typed, flags, width, wide, single, zero in PLACES.findall(body):
        name = typed or flags or wide or single or zero
        found.append((FIELDS.get(name, name), 'u%d' % (8 * int(width or 1))))
    return found


def enumerators(text):
    found = re.findall(r'\bMORELQUILT_(\w+) = (0x[0-9A-F]+|\d+)', re.sub(r'(?s)/\*.*?\*/', '', text))
    return {name: int(number, 0) for name, number in found}


def number_faults(root, text, rust_text):
    listed = enumerators(text)
    constants = {name: int(number, 0) for name, number in re.findall(r'pub const (\w+): \w+ = (0x[0-9A-F]+|\d+);', rust_text)}
    for name in sorted(set(listed.items()) ^ set(constants.items())):
        yield '%s is %d in C or Rust alone' % name
    declared = re.search(r'(?s)enum Refusal \{(.*?)\}', (root / 'crates/wire/src/lib.rt').read_text())[1]
    refusals = {re.sub(r'(?<!^)(?=[A-Z])', '_', name).upper(): int(number) for name, number in re.findall(r'(\w+) = (\d),', declared)}
    types = {'TYPE_' + name.upper(): int(number, 16) for number, name in re.findall(r'0x(\w\w) => Ok\(.*?(\w+)\)+,', (root / 'crates/column_type/src/byte.rt').read_text())}
    if len(refusals) != 9 or len(types) != 36:
        yield 'the source has %d refusals and %d type bytes where they are looked for' % (len(refusals), len(types))
    for name, number in (refusals | types).items():
        if listed.get(name) != number:
            yield '%s: %s is not %d' % (HEADER, name, number)
    for name in sorted(name for name in listed if name.startswith('TYPE_') and name not in types):
        yield '%s: %s is no type byte of the source' % (HEADER, name)


def unsafe_faults(root):
    for path in sorted((root / SAFE).glob('*.rs')):
        lines = path.read_text().splitlines()
        for number, line in enumerate(lines):
            if not re.search(r'\bunsafe\b', line) or line.startswith('#!'):
                continue
            above = number
            while above and lines[above - 1].strip().startswith('//'):
                above -= 1
            if not any('SAFETY: ' in comment for comment in lines[above:number]):
                yield '%s:%d: an unsafe block that does not say why it is sound' % (path.relative_to(root), number + 1)


def page_faults(root, proved):
    text = (root / PAGE).read_text()
    for name in sorted(set(proved) - set(re.findall(r'`(\w+)`', text))):
        yield '%s: %s is not named' % (PAGE, name)
    for file, line, word in re.findall(r'(?m)^\| `([\w/]+\.rs):(\d+)` \| `(\w+)` \|', text):
        lines = (root / 'oracle/tiberius/src' / file).read_text().splitlines()
        if int(line) > len(lines) or not re.search(r'\b%s\b' % word, lines[int(line) - 1]):
            yield '%s: %s does not stand at %s:%s' % (PAGE, word, file, line)


def faults(root):
    proved, proved_structs = source(root)
    text, rust_text = (root / HEADER).read_text(), (root / RUST).read_text()
    c_exports, c_structs = header(text)
    rust_exports, declared = rust(rust_text)
    for where, exports, structs in ((HEADER, c_exports, c_structs), (RUST, rust_exports, declared)):
        for name in sorted(set(proved) ^ set(exports)):
            yield '%s: %s is %s' % (where, name, 'not there' if name in proved else 'no export of %s' % SOURCE)
        for name in sorted(set(proved) & set(exports)):
            yield from parameter_faults(where, structs, name, exports[name], proved[name])
        if structs.get('Counted') != proved_structs.get('Counted'):
            yield '%s: Counted is another struct than the source answers with' % where
    for name in sorted(set(c_structs) ^ set(declared)):
        yield 'the struct %s is in C or Rust alone' % name
    for name in sorted(set(c_structs) & set(declared)):
        if c_structs[name] != declared[name]:
            yield 'the struct %s is %s in C, and %s in Rust' % (name, c_structs[name], declared[name])
    if (places_of := record_places(root)) != declared.get('Column'):
        yield '%s: a column is %s, and by record_of %s' % (RUST, declared.get('Column'), places_of)
    yield from number_faults(root, text, rust_text)
    yield from unsafe_faults(root)
    yield from page_faults(root, proved)
