"""The layer of a printed file: the header's calls over the core's. layer.py CRATE prints what stands before the calls of a
crate's library, where they are called inner_NAME.

The core sees memory as the proved build for x86-64 does: a pointer and a length have 8 bytes, a number its low byte
first. Where a machine has that, the caller's structs are the core's, and each call hands its words on. Elsewhere each
struct is written to an image of the core's form before the call, aligned as the core's are, and read back behind it."""

import functools
import re
import sys

import headers

# No struct of an array has more bytes.
LARGEST = 1024
SIZES = {"size_t": 8, "uint64_t": 8, "int64_t": 8, "uint32_t": 4, "int32_t": 4, "uint16_t": 2, "uint8_t": 1}

# Where arrays of structs cross, or units of two bytes: one a call, so that no room is taken for images.
BY_HAND = {
    "tds_packets_read": """    _Alignas(16) unsigned char image[16] = {0}, counted[8] = {0};
    uint8_t answer;
    *count = 0;
    do {
        answer = core_tds_packets_read(ONE_BYTES(bytes), length, size, direction, ONE_BYTES(image), *count < room, ONE_BYTES(counted));
        if (one_read64(ONE_BYTES(counted)) == 0) return answer;
        one_from_tds_packet(&packets[*count], image);
        bytes += packets[*count].length, length -= packets[*count].length;
        ++*count;
    } while (answer == TDS_OK);
    return answer;
""",
    "tds_tokens_next": """    _Alignas(16) unsigned char place[16] = {0}, image[32] = {0}, counted[8] = {0};
    uint8_t answer;
    *count = 0;
    one_to_tds_cursor(place, cursor);
    do {
        answer = core_tds_tokens_next(ONE_BYTES(data), length, ONE_BYTES(place), ONE_BYTES(image), *count < room, ONE_BYTES(counted));
        if (one_read64(ONE_BYTES(counted)) == 0) break;
        one_from_tds_token(&tokens[(*count)++], image);
    } while (answer == TDS_OK);
    one_from_tds_cursor(cursor, place);
    return answer;
""",
    # Token by token, while there is room.
    "tds_client_hear": """    _Alignas(16) unsigned char of_client[40] = {0}, of_walk[104] = {0}, of_memory[8706] = {0};
    _Alignas(16) unsigned char image[88] = {0}, done[8] = {0}, counted[8] = {0};
    uint8_t answer;
    *taken = *count = 0;
    one_to_tds_client(of_client, client);
    one_to_tds_wire(of_walk, walk);
    one_to_tds_wire_memory(of_memory, memory);
    do {
        answer = core_tds_client_hear(ONE_BYTES(of_client), ONE_BYTES(of_walk), ONE_BYTES(of_memory), ONE_BYTES(bytes), length, ends,
                                      ONE_BYTES(done), ONE_BYTES(image), *count < room, ONE_BYTES(counted));
        *taken += (size_t)one_read64(ONE_BYTES(done));
        bytes += (size_t)one_read64(ONE_BYTES(done)), length -= (size_t)one_read64(ONE_BYTES(done));
        if (one_read64(ONE_BYTES(counted)) != 0) one_from_tds_wire_token(&tokens[(*count)++], image);
    } while (answer == TDS_TELL && *count < room);
    one_from_tds_client(client, of_client);
    one_from_tds_wire(walk, of_walk);
    one_from_tds_wire_memory(memory, of_memory);
    return answer;
""",
    # A longer text is refused unread.
    "tds_client_start_batch": """    _Alignas(16) unsigned char image[40] = {0}, counted[8] = {0}, low_first[4000];
    uint8_t answer;
    for (size_t k = 0; k < units && k < 2000; k++) one_write16(ONE_BYTES(low_first + 2 * k), text[k]);
    one_to_tds_client(image, client);
    answer = core_tds_client_start_batch(ONE_BYTES(image), ONE_BYTES(low_first), units, ONE_BYTES(message), room, ONE_BYTES(counted));
    one_from_tds_client(client, image);
    *count = (size_t)one_read64(ONE_BYTES(counted));
    return answer;
""",
    # A library that takes memory anyway. One more of each, since of no bytes a block may be none.
    "tds_judge": """    _Alignas(16) unsigned char of_limits[16] = {0}, counted[8] = {0};
    unsigned char *of_pieces = calloc(piece_count + 1, 24), *of_findings = calloc(room + 1, 32);
    uint8_t answer = TDS_JUDGE_NO_MEMORY;
    *count = 0;
    if (of_pieces && of_findings) {
        one_to_tds_judge_limits(of_limits, limits);
        for (size_t k = 0; k < piece_count; k++) one_to_tds_judge_piece(of_pieces + 24 * k, &pieces[k]);
        answer = core_tds_judge(ONE_BYTES(of_limits), ONE_BYTES(of_pieces), piece_count, ONE_BYTES(bytes), length,
                                ONE_BYTES(of_findings), room, ONE_BYTES(counted));
        *count = (size_t)one_read64(ONE_BYTES(counted));
        for (size_t k = 0; answer == TDS_JUDGED && k < *count; k++) one_from_tds_judge_finding(&findings[k], of_findings + 32 * k);
    }
    free(of_pieces);
    free(of_findings);
    return answer;
""",
}

# Of a table's seats an image is made for each call: of those that it has, and of one more where there is room for one.
SEATS = """    size_t of_most = service->count < most ? service->count + 1 : most;
    unsigned char *of_seats = calloc(of_most + 1, {size});
    if (!of_seats) return TDS_NO_MEMORY;
    for (size_t k = 0; k < of_most; k++) one_to_tds_seat(of_seats + {size} * k, &seats[k]);
"""
SEATS_BACK = "    for (size_t k = 0; k < of_most; k++) one_from_tds_seat(&seats[k], of_seats + {size} * k);\n"

# Token by token too.
BY_HAND["tds_service_hear"] = SEATS.format(size=72) + """    _Alignas(16) unsigned char of_service[32] = {0}, of_walk[104] = {0}, of_memory[8706] = {0}, of_whose[16] = {0};
    _Alignas(16) unsigned char image[88] = {0}, done[8] = {0}, counted[8] = {0};
    uint8_t answer;
    *taken = *count = 0;
    one_to_tds_service(of_service, service);
    one_to_tds_wire(of_walk, walk);
    one_to_tds_wire_memory(of_memory, memory);
    one_to_tds_whose(of_whose, whose);
    do {
        answer = core_tds_service_hear(ONE_BYTES(of_service), ONE_BYTES(of_seats), of_most, number, ONE_BYTES(of_walk), ONE_BYTES(of_memory),
                                       ONE_BYTES(bytes), length, ends, ONE_BYTES(done), ONE_BYTES(image), *count < room, ONE_BYTES(counted),
                                       ONE_BYTES(of_whose));
        *taken += (size_t)one_read64(ONE_BYTES(done));
        bytes += (size_t)one_read64(ONE_BYTES(done)), length -= (size_t)one_read64(ONE_BYTES(done));
        if (one_read64(ONE_BYTES(counted)) != 0) one_from_tds_wire_token(&tokens[(*count)++], image);
    } while (answer == TDS_TELL && *count < room);
""" + SEATS_BACK.format(size=72) + """    free(of_seats);
    one_from_tds_wire(walk, of_walk);
    one_from_tds_wire_memory(memory, of_memory);
    one_from_tds_whose(whose, of_whose);
    return answer;
"""

# Of columns and places images are made for each call.
COLUMNS = """    unsigned char *of_columns = calloc({many} + 1, 40);
    _Alignas(16) unsigned char {counts};
    uint8_t answer = TDS_NO_MEMORY;
"""
ROWS = COLUMNS.replace("    _Alignas", "    unsigned char *of_places = calloc(room + 1, 24);\n    _Alignas") + """    if (of_columns && of_places) {{
        for (size_t k = 0; k < count; k++) one_to_tds_column(of_columns + 40 * k, &columns[k]);
        for (size_t k = 0; k < room; k++) one_to_tds_place(of_places + 24 * k, &places[k]);
        answer = {call};
        for (size_t k = 0; k < room; k++) one_from_tds_place(&places[k], of_places + 24 * k);
{back}    }}
    free(of_columns);
    free(of_places);
    return answer;
"""
TAKEN = "        *{name} = (size_t)one_read64(ONE_BYTES(of_{name}));\n"
BY_HAND["tds_columns"] = COLUMNS.format(many="room", counts="of_count[8] = {0}, of_taken[8] = {0}") + """    *count = *taken = 0;
    if (of_columns) {
        answer = core_tds_columns(ONE_BYTES(bytes), length, encryption, ONE_BYTES(of_columns), room, ONE_BYTES(of_count), ONE_BYTES(of_taken));
""" + TAKEN.format(name="count") + TAKEN.format(name="taken") + """        for (size_t k = 0; k < *count; k++) one_from_tds_column(&columns[k], of_columns + 40 * k);
    }
    free(of_columns);
    return answer;
"""
BY_HAND["tds_row_places"] = ROWS.format(
    many="count", counts="of_taken[8] = {0}", back=TAKEN.format(name="taken"),
    call="core_tds_row_places(ONE_BYTES(of_columns), count, ONE_BYTES(bytes), length, ONE_BYTES(of_places), room, ONE_BYTES(of_taken))")
BY_HAND["tds_places_of_rows"] = ROWS.format(
    many="count", counts="of_rows[8] = {0}, of_taken[8] = {0}", back=TAKEN.format(name="rows") + TAKEN.format(name="taken"),
    call="""core_tds_places_of_rows(ONE_BYTES(of_columns), count, ONE_BYTES(bytes), length, ONE_BYTES(of_places), room,
                                         ONE_BYTES(of_rows), ONE_BYTES(of_taken))""")
BY_HAND["tds_row_values"] = ROWS.format(
    many="count", counts="of_next[8] = {0}, of_taken[8] = {0}", back=TAKEN.format(name="next") + TAKEN.format(name="taken"),
    call="""core_tds_row_values(ONE_BYTES(of_columns), count, first, ONE_BYTES(nulls), bits, ONE_BYTES(bytes), length,
                                     ONE_BYTES(of_places), room, ONE_BYTES(of_next), ONE_BYTES(of_taken))""")

OPENING = """/* ---- The layer: the header's calls over the core above.
 *
 * The core sees memory as the proved build for x86-64 does: a pointer and a length have 8 bytes, a number its low byte
 * first. Where this machine has that, its structs are the core's, and each call hands its words on. Elsewhere each
 * struct is written to an image of the core's form before the call, and read back behind it. */
#if !defined(ONE_IMAGES) && (SIZE_MAX != UINT64_MAX || ONE_BIG_ENDIAN)
#define ONE_IMAGES 1
#endif
#ifndef ONE_IMAGES
#define ONE_IMAGES 0
#endif

#define ONE_BYTES(p) ONE_POINTER((uintptr_t)(p))
"""


class Struct:
    """A struct of the headers: its fields with the place of each in the core's form."""

    def __init__(self, name, body, known):
        self.name, self.fields, at, self.align = name, [], 0, 1
        for kind, field, count in declared(body):
            size, align = (known[kind[7:]].size, known[kind[7:]].align) if kind.startswith("struct ") else (SIZES[kind],) * 2
            many = count and constant(count)
            at = (at + align - 1) // align * align
            self.fields.append((kind, field, many, at, size))
            at += size * (many or 1)
            self.align = max(self.align, align)
        self.size = (at + self.align - 1) // self.align * self.align

    def asserts(self):
        places = [f"sizeof(struct {self.name}) == {self.size}"]
        places += [f"offsetof(struct {self.name}, {name}) == {at}" for _, name, _, at, _ in self.fields]
        return f'_Static_assert({" && ".join(places)}, "{self.name}");'

    def image(self, writes):
        """What writes the image of the struct at `v`, or reads it back."""
        lines = []
        for kind, name, many, at, size in self.fields:
            place, value, loop = f"i + {at}", f"v->{name}", ""
            if many:
                place, value, loop = f"i + {at} + {size} * k", f"v->{name}[k]", f"for (size_t k = 0; k < {many}; k++) "
            if kind.startswith("struct"):
                way = f"one_to_{kind[7:]}({place}, &{value});" if writes else f"one_from_{kind[7:]}(&{value}, {place});"
            elif writes:
                way = f"one_write{8 * size}(ONE_BYTES({place}), (uint{8 * size}_t){value});"
            elif kind.startswith("int"):
                way = f"{{ uint{8 * size}_t w = one_read{8 * size}(ONE_BYTES({place})); memcpy(&{value}, &w, {size}); }}"
            else:
                way = f"{value} = ({kind})one_read{8 * size}(ONE_BYTES({place}));"
            lines.append(f"    {loop}{way}")
        head = f"one_to_{self.name}(unsigned char *i, const struct {self.name} *v)" if writes else (
            f"one_from_{self.name}(struct {self.name} *v, const unsigned char *i)")
        return f"static inline void {head} {{\n" + "\n".join(lines) + "\n}\n"


def declared(body):
    """Each field of a struct's text: its type, its name, and the words in its brackets or None."""
    for line in body.split(";"):
        if not line.strip():
            continue
        kind, names = re.fullmatch(r"\s*((?:struct )?\w+)\s+(.*)", line, re.S).groups()
        for name in names.split(","):
            field, count = re.fullmatch(r"\s*(\w+)\s*(?:\[([\w /]+)\])?\s*", name).groups()
            yield kind, field, count


def constant(word):
    """A number, a constant of the headers that is one, or a part of one."""
    if "/" in word:
        whole, part = word.split("/")
        return constant(whole.strip()) // int(part)
    if word.isdigit():
        return int(word)
    for name in headers.here():
        if found := re.search(rf"(?m)^#define {word} (\d+)\b", headers.text_of(name)):
            return int(found[1])
    raise SystemExit(f"layer: what is {word}?")


@functools.cache
def structs():
    found = {}
    for name in headers.here():
        for word, body in re.findall(r"struct (\w+) \{(.*?)\}", headers.without_comments(headers.text_of(name)), re.S):
            found[word] = Struct(word, body, found)
    return found


def guard(arguments):
    """What stands before a call: null where an object is wanted or a length isn't 0, and a length that no object has,
    are answered; null with a length of 0 is the address of something. Of most calls one look says that nothing is amiss."""
    misfits, rest, counts = [], [], []
    for place, argument in enumerate(arguments):
        kind, name = parts(argument)
        if "*" not in kind:
            continue
        if not is_array(arguments, place):
            misfits.append(f"!{name}")
            continue
        count = parts(arguments[place + 1])[1]
        of = re.sub(r"const|\*", "", kind).strip()
        if of.startswith("struct ") and structs()[of[7:]].size > LARGEST:
            raise SystemExit(f"layer: {of} is larger than {LARGEST} bytes")
        bound = "PTRDIFF_MAX" if of == "uint8_t" else f"PTRDIFF_MAX / sizeof({of})"
        misfits.append(f"({name} ? {count} > {bound} : {count} != 0)")
        rest.append(f"        if (!{name}) {name} = ({kind.strip()})(void *)&none;\n")
        counts.append(count)
    if not rest:
        return f"    if ({' || '.join(misfits)}) return MOUKTELF_MISFIT;\n" if misfits else ""
    quick = [f"!{parts(it)[1]}" for it in arguments if "*" in it]
    quick.append(f"({' | '.join(counts)}) > PTRDIFF_MAX / {LARGEST}" if counts[1:] else f"{counts[0]} > PTRDIFF_MAX / {LARGEST}")
    return (f"    uint64_t none;\n    if ({' || '.join(quick)}) {{\n        none = 0;\n"
            f"        if ({' || '.join(misfits)}) return MOUKTELF_MISFIT;\n{''.join(rest)}    }}\n")


def guards(names):
    """The C text of what stands in a library before the calls of these names, whose own are called inner_NAME there."""
    text = '#include "mouktelf.h"\n\n/* Null pointers, and lengths that nothing can have, are answered before the call. */\n'
    for _, answer, name, arguments in headers.prototypes():
        if name in names and answer == "uint8_t" and guard(arguments):
            words = ", ".join(parts(it)[1] for it in arguments)
            text += f"\n{answer} inner_{name}({', '.join(arguments)});\n{answer} {name}({', '.join(arguments)}) {{\n{guard(arguments)}"
            text += f"    return inner_{name}({words});\n}}\n"
    return text


def parts(argument):
    """An argument's type and its name."""
    kind, name = re.fullmatch(r"(.*?)(\w+)", argument).groups()
    return kind.strip(), name


def is_array(arguments, place):
    """Whether a struct's pointer has a length behind it."""
    return place + 1 < len(arguments) and parts(arguments[place + 1])[0] == "size_t"


def direct(answer, name, arguments):
    words = [f"ONE_BYTES({parts(it)[1]})" if "*" in it else parts(it)[1] for it in arguments]
    return f"    return core_{name}({', '.join(words)});\n"


def by_images(answer, name, arguments, known):
    """The call with images, or None where an array of structs crosses, or one of wider units."""
    if name in BY_HAND:
        return BY_HAND[name]
    before, words, behind = [], [], []
    for place, argument in enumerate(arguments):
        kind, word = parts(argument)
        if "*" not in kind:
            words.append("of_most" if word == "most" and "of_seats" in " ".join(words) else word)
        elif "uint8_t" in kind:
            words.append(f"ONE_BYTES({word})")
        elif kind in ("size_t *", "uint64_t *"):
            before.append(f"    _Alignas(16) unsigned char of_{word}[8] = {{0}};\n    one_write64(ONE_BYTES(of_{word}), *{word});\n")
            behind.append(f"    *{word} = ({kind[:-2]})one_read64(ONE_BYTES(of_{word}));\n")
            words.append(f"ONE_BYTES(of_{word})")
        elif word == "seats":
            size = known["tds_seat"].size
            before.append(SEATS.format(size=size))
            behind += [] if "const" in kind else [SEATS_BACK.format(size=size)]
            behind.append("    free(of_seats);\n")
            words.append("ONE_BYTES(of_seats)")
        elif "struct" in kind and not is_array(arguments, place):
            struct = known[re.search(r"struct (\w+)", kind)[1]]
            before.append(f"    _Alignas(16) unsigned char of_{word}[{struct.size}] = {{0}};\n    one_to_{struct.name}(of_{word}, {word});\n")
            if "const" not in kind:
                behind.append(f"    one_from_{struct.name}({word}, of_{word});\n")
            words.append(f"ONE_BYTES(of_{word})")
        else:
            return None
    call = f"core_{name}({', '.join(words)})"
    if not before:
        return f"    return {call};\n"
    return "".join(before) + f"    {answer} answer = {call};\n" + "".join(behind) + "    return answer;\n"


def layer(names):
    """The C text of the layer for these calls, and those that there are not on machines with images."""
    known, direct_ones, images, left_out = structs(), [], [], []
    for _, answer, name, arguments in headers.prototypes():
        if name not in names:
            continue
        head = f"{answer} {name}({', '.join(arguments) or 'void'}) {{\n"
        head += guard(arguments) if answer == "uint8_t" else ""
        direct_ones.append(head + direct(answer, name, arguments) + "}\n")
        body = by_images(answer, name, arguments, known)
        if body is None:
            left_out.append(name)
            images.append(f"/* {name}: arrays of structs don't cross on such a machine yet. */\n")
        else:
            images.append(head + body + "}\n")
    used = " ".join(images)
    kept, texts = True, {}
    for struct in known.values():
        texts[f"one_to_{struct.name}"], texts[f"one_from_{struct.name}"] = struct.image(True), struct.image(False)
    while kept:
        # One that nothing calls goes, and then what it alone called.
        kept = [it for it in texts if len(re.findall(rf"\b{it}\(", used + " ".join(texts.values()))) < 2]
        for it in kept:
            del texts[it]
    in_calls = [it for it in known.values() if re.search(rf"struct {it.name}\b", " ".join(direct_ones))]
    text = OPENING + "\n#if !ONE_IMAGES\n\n" + "\n".join(it.asserts() for it in in_calls) + "\n\n" + "\n".join(direct_ones)
    return text + "\n#else\n\n" + "\n".join(texts.values()) + "\n" + "\n".join(images) + "\n#endif\n", left_out


if __name__ == "__main__":
    print(guards(headers.calls_of(sys.argv[1])), end="")
