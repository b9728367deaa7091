"""Random statements of C, as people write filters of blocks: records one behind the other, tables that are looked through, positions
that move with lengths from the block, counters in scratch, and emits."""

from __future__ import annotations

from typing import Callable, List, Optional, Tuple

from expressions import Expressions, fields_of, least_bits, writable_arrays
from interpret import BLOCK
from scope import U8, U32, U64, Array, Pointer, Record, Scope, Variable
from tree import Part

_ASSIGNS = ["=", "+=", "+=", "-=", "*=", "^=", "|=", "&="]


class Statements(Expressions):
    """Draws statements. `sum` is a variable that each place can name, and that the program shows at its end."""

    def body(self, scope: Scope, count: int, depth: int) -> List[Part]:
        """So many statements, as far as the budget goes."""
        parts: List[Part] = []
        for _ in range(count):
            if not self.can(scope, 12):
                break
            self.spend(scope, 3)
            parts += self._statement(scope, depth)
        return parts or [Part(f"sum += {self.number(scope, 0)};")]

    def _statement(self, scope: Scope, depth: int) -> List[Part]:
        """One statement, perhaps with declarations in front of it."""
        ways: List[Callable[[Scope, int], List[Part]]] = [self._assignment, self._assignment, self._declaration, self._of_scratch]
        ways += [self._emit, self._emit, self._early_end]
        if writable_arrays(scope):
            ways += [self._to_array, self._to_array]
        if any(fields_of(it) for it in scope.records):
            ways += [self._to_record]
        for feature, way in (("pointers", self._pointer), ("arrays", self._array), ("copies", self._copy)):
            if feature in self.features:
                ways.append(way)
        if depth > 0:
            ways += [self._if, self._if, self._known_loop, self._known_loop]
            ways += [way for feature, way in self._compound() if feature in self.features]
            ways += [self._string_loop] if scope.strings else []
        return self.pick(ways)(scope, depth)

    def _compound(self) -> List[Tuple[str, Callable[[Scope, int], List[Part]]]]:
        """The statements that only programs with a feature have."""
        return [
            ("switch", self._switch),
            ("bounds from data", self._loop_to_data),
            ("bounds from data", self._loop_to_data),
            ("records", self._record_loop),
            ("records", self._record_loop),
            ("lengths", self._length_loop),
            ("bits", self._bit_loop),
            ("search", self._search),
            ("unknown bounds", self._unknown_loop),
        ]

    # ---- plain statements

    def _assignment(self, scope: Scope, depth: int) -> List[Part]:
        """An assignment to a variable."""
        name = self.pick(scope.assigned()).name if self.rng.random() < 0.6 else "sum"
        return [Part(f"{name} {self.pick(_ASSIGNS)} {self.number(scope)};")]

    def _declaration(self, scope: Scope, depth: int) -> List[Part]:
        """A new variable."""
        variable = Variable(self.new_name("v"), self.type())
        part = Part(f"{variable.type.name} {variable.name} = {self.number(scope)};")
        scope.variables.append(variable)
        return [part]

    def _of_scratch(self, scope: Scope, depth: int) -> List[Part]:
        """A counter or a byte in an area that is kept."""
        kept = [it for it in scope.pointers if it.is_writable and it.room >= 64]
        if not kept:
            return self._assignment(scope, depth)
        pointer, kind = self.pick(kept), self.type()
        length = min(64, least_bits(pointer.room // kind.bytes))
        place = f"(({kind.name} *){pointer.text})[{self.index(scope, length)}]"
        if self.rng.random() < 0.2:
            return [Part(f"{place}++;")]
        return [Part(f"{place} {self.pick(_ASSIGNS)} {self.number(scope)};")]

    def _to_array(self, scope: Scope, depth: int) -> List[Part]:
        array = self.pick(writable_arrays(scope))
        return [Part(f"{array.name}[{self.index(scope, array.length)}] {self.pick(_ASSIGNS)} {self.number(scope)};")]

    def _to_record(self, scope: Scope, depth: int) -> List[Part]:
        record = self.pick([it for it in scope.records if fields_of(it)])
        return [Part(f"{record.text}{self.pick(fields_of(record)).name} {self.pick(_ASSIGNS)} {self.number(scope)};")]

    def _early_end(self, scope: Scope, depth: int) -> List[Part]:
        """An end of the loop, of the round, or of the block."""
        if not self.has("early ends", 0.5):
            return self._assignment(scope, depth)
        word = self.pick(["break;", "continue;"]) if scope.in_loop else "return 0;"
        return [Part(f"if ({self.condition(scope)})", [Part(word)])]

    def _array(self, scope: Scope, depth: int) -> List[Part]:
        """An array on the stack, with the same number in each place, or others."""
        array = Array(self.new_name("a"), self.type(), self.pick([2, 4, 8, 8, 16]), True)
        if array.length * array.type.bytes > 64:
            return self._declaration(scope, depth)
        filled = self.rng.random() < 0.5
        values = ", ".join(self.number(scope, 1) for _ in range(self.rng.randrange(1, array.length + 1))) if filled else "0"
        scope.arrays.append(array)
        self.spend(scope, array.length)
        return [Part(f"{array.type.name} {array.name}[{array.length}] = {{ {values} }};")]

    def _pointer(self, scope: Scope, depth: int) -> List[Part]:
        """A variable that is an address, of one area or of either of two."""
        first = self.address(scope, 8)
        if not first:
            return self._assignment(scope, depth)
        name, room = self.new_name("p"), first.room
        by = first.text
        if self.has("two areas", 0.4):
            other = self.address(scope, 8)
            if other:
                by, room = f"{self.condition(scope)} ? {first.text} : {other.text}", min(room, other.room)
        if self.has("two areas", 0.3):
            scope.pointers.append(Pointer(f"{name}.at", room, False))
            return [Part(f"struct view {name} = {{ {by}, {self.number(scope, 1)} }};")]
        scope.pointers.append(Pointer(name, room, False))
        return [Part(f"const u8 *{name} = {by};")]

    def _copy(self, scope: Scope, depth: int) -> List[Part]:
        """Bytes that are copied or set."""
        length = self.pick([1, 2, 3, 4, 6, 8, 12, 16, 24])
        to, by = self.address(scope, length, writes=True), self.address(scope, length)
        if not to or not by:
            return self._assignment(scope, depth)
        self.spend(scope, length)
        if self.rng.random() < 0.3:
            return [Part(f"__builtin_memset((void *){to.text}, {self.pick([0, 1, 255, 32])}, {length});")]
        word = self.pick(["memcpy", "memcpy", "memmove"])
        return [Part(f"__builtin_{word}((void *){to.text}, {by.text}, {length});")]

    # ---- emits

    def _emit(self, scope: Scope, depth: int) -> List[Part]:
        """An emit of bytes, of a known length or of one that is bounded."""
        most = min(self.emit_left // scope.rounds - 2, 64)
        if most < 1:
            return self._assignment(scope, depth)
        if most >= 8 and self.rng.random() < 0.3:
            self.emit_left -= 10 * scope.rounds
            return [Part("emit(&sum, sizeof sum);")]
        length = self.pick([it for it in (1, 2, 3, 4, 8, 12, 16, 20, 32, 64) if it <= most])
        pointer = self.address(scope, length)
        if not pointer:
            return self._assignment(scope, depth)
        self.emit_left -= (length + 2) * scope.rounds
        word = str(length)
        if length >= 2 and self.has("lengths", 0.6):
            power = least_bits(length)
            word = f"({self.number(scope, 1)} & {power - 1}) + 1" if power > 1 else "1"
        call = Part(f"emit({pointer.text}, {word});")
        return [Part(f"if ({self.condition(scope)})", [call])] if self.rng.random() < 0.5 else [call]

    # ---- ways through

    def _if(self, scope: Scope, depth: int) -> List[Part]:
        parts = [Part(f"if ({self.condition(scope)}) {{", self.body(scope.inner(), self.rng.randrange(1, 4), depth - 1), "}")]
        if self.rng.random() < 0.4:
            parts.append(Part("else {", self.body(scope.inner(), self.rng.randrange(1, 3), depth - 1), "}"))
        return parts

    def _switch(self, scope: Scope, depth: int) -> List[Part]:
        """A switch over neighbours, or over numbers that are far apart."""
        first = self.pick([0, 0, 1, 3])
        numbers = [first + at for at in range(self.rng.randrange(2, 9))] if self.rng.random() < 0.7 else [1, 7, 64, 200, 255]
        if self.rng.random() < 0.3:
            cases = [Part(f"case {number}: sum += {self.pick([3, 5, 17, 250, 1000 + number])}; break;") for number in numbers]
        else:
            cases = []
            for number in numbers:
                inner = self.body(scope.inner(), self.rng.randrange(1, 3), 0)
                ends = [Part("break;")] if self.rng.random() < 0.8 else []
                cases.append(Part(f"case {number}: {{", inner, "}"))
                cases += ends
        if self.rng.random() < 0.5:
            cases.append(Part("default: {", self.body(scope.inner(), 1, 0), "}"))
        mask = self.pick([3, 7, 7, 15, 255])
        return [Part(f"switch ({self.number(scope)} & {mask}) {{", cases, "}")]

    # ---- loops

    def _rounds(self, scope: Scope, most: int) -> int:
        """How many rounds a loop can have that the budget allows."""
        return min(most, self.budget // max(1, scope.rounds) // 30)

    def _loop(self, head: str, scope: Scope, rounds: int, counter: Optional[Variable], depth: int, count: int = 3) -> Part:
        """A loop with this head."""
        inner = scope.inner(rounds, True)
        if counter:
            inner.variables.append(counter)
        return Part(head + " {", self.body(inner, self.rng.randrange(1, count + 1), depth - 1), "}")

    def _counter(self, most: int) -> Variable:
        """A variable that counts rounds."""
        kind = self.pick([U32, U64, *([it for it in [self.type()] if it.bits >= 32])])
        return Variable(self.new_name("i"), kind, most, False)

    def _known_loop(self, scope: Scope, depth: int) -> List[Part]:
        """A loop with a constant bound, upward or downward."""
        most = self._rounds(scope, self.pick([3, 4, 8, 8, 16, 16, 32, 64]))
        if most < 2:
            return self._if(scope, depth)
        rounds = self.rng.randrange(2, most + 1)
        counter = self._counter(rounds - 1)
        name, kind = counter.name, counter.type.name
        head = f"for ({kind} {name} = 0; {name} < {rounds}; {name}++)"
        if self.rng.random() < 0.2:
            head = f"for (int {name} = {rounds - 1}; {name} >= 0; {name}--)"
        unroll = [Part("#pragma unroll")] if self.has("unrolled", 0.3) else []
        return [*unroll, self._loop(head, scope, rounds, counter, depth)]

    def _loop_to_data(self, scope: Scope, depth: int) -> List[Part]:
        """A loop to a bound from the block, which a mask, a compare or its type bounds."""
        power = self.pick([3, 7, 7, 15, 31])
        if self._rounds(scope, power) < power:
            return self._if(scope, depth)
        bound, counter = Variable(self.new_name("n"), self.pick([U8, U32, U64]), power, False), self._counter(power - 1)
        name, number = counter.name, self.number(scope, 1)
        if self.rng.random() < 0.5:
            parts = [Part(f"{bound.type.name} {bound.name} = {number} & {power};")]
        else:
            parts = [Part(f"{bound.type.name} {bound.name} = {number};")]
            parts.append(Part(f"if ({bound.name} > {power})", [Part(f"{bound.name} = {power};")]))
        draw = self.rng.random()
        if draw < 0.6:
            head = f"for ({counter.type.name} {name} = 0; {name} < {bound.name}; {name}++)"
        elif draw < 0.8:
            head = f"for (u32 {name} = 0; {name} < {power}; {name}++)"
            loop = self._loop(head, scope, power, counter, depth)
            loop.body.insert(0, Part(f"if ({name} >= {bound.name})", [Part("break;")]))
            return [*parts, loop]
        else:
            return [*parts, self._loop(f"while ({bound.name}--)", scope, power, None, depth)]
        return [*parts, self._loop(head, scope, power, counter, depth)]

    def _record_loop(self, scope: Scope, depth: int) -> List[Part]:
        """A loop over records of one size that stand one behind the other."""
        structure = self.pick(self.structures())
        areas = [it for it in scope.pointers if it.room >= 2 * structure.size]
        if not areas:
            return self._known_loop(scope, depth)
        area = self.pick(areas)
        most = self._rounds(scope, min(32, area.room // structure.size))
        if most < 2:
            return self._if(scope, depth)
        rounds = self.rng.randrange(2, most + 1)
        counter, name = self._counter(rounds - 1), self.new_name("r")
        i, kind = counter.name, f"const struct {structure.name} *"
        inner = scope.inner(rounds, True)
        inner.variables.append(counter)
        inner.records.append(Record(f"{name}->", structure, False))
        inner.pointers.append(Pointer(f"((const u8 *){name})", structure.size, False))
        first, more = [Part(f"{kind}{name} = ({kind})({area.text} + {i} * {structure.size});")], ""
        before: List[Part] = []
        if self.rng.random() < 0.4:
            before, first, more = [Part(f"{kind}{name} = ({kind}){area.text};")], [], f", {name}++"
        head = f"for ({counter.type.name} {i} = 0; {i} < {rounds}; {i}++{more}) {{"
        if scope.is_entry and area.text == "block" and most * structure.size == BLOCK and self.rng.random() < 0.7:
            head = f"for (u32 {i} = 0; {i} + {structure.size} <= context->block_size; {i} += {structure.size}{more}) {{"
            inner.variables[-1] = Variable(i, U32, BLOCK, False)
            inner.rounds = scope.rounds * most
            first = [Part(f"{kind}{name} = ({kind})({area.text} + {i});")] if first else []
        return [*before, Part(head, first + self.body(inner, self.rng.randrange(1, 5), depth - 1), "}")]

    def structures(self) -> List:  # type: ignore[type-arg]
        """The structure types of the file."""
        raise NotImplementedError

    def _length_loop(self, scope: Scope, depth: int) -> List[Part]:
        """A loop over entries whose first byte is their length: at most so many, and as far as they are in the block."""
        most = self._rounds(scope, 8)
        areas = [it for it in scope.pointers if it.room >= 256]
        if most < 2 or not areas:
            return self._if(scope, depth)
        area, rounds = self.pick(areas), self.rng.randrange(2, most + 1)
        at, length, counter = self.new_name("at"), self.new_name("length"), self._counter(rounds - 1)
        i, end = counter.name, self.pick([it for it in (64, 128, 256, 512) if it <= area.room])
        inner = scope.inner(rounds, True)
        inner.variables += [counter, Variable(at, U32, end, False), Variable(length, U32, 255, False)]
        inner.pointers.append(Pointer(f"({area.text} + {at})", 2, False))
        first = [
            Part(f"u32 {length} = {area.text}[{at}];"),
            Part(f"if ({length} == 0 || {at} + 2 + {length} > {end})", [Part("break;")]),
        ]
        if self.emit_left >= 34 * rounds * scope.rounds and self.rng.random() < 0.6:
            self.emit_left -= 34 * rounds * scope.rounds
            first.append(Part(f"if ({length} <= 32)", [Part(f"emit({area.text} + {at} + 1, {length});")]))
        last = Part(f"{at} += {length} + 2;" if self.rng.random() < 0.5 else f"{at} += {length} + 1;")
        inner.in_loop = False
        body = [*first, *self._without_ends(inner, depth), last]
        if self.rng.random() < 0.6:
            head = f"for (int {i} = 0; {i} < {rounds} && {at} + 2 <= {end}; {i}++) {{"
            return [Part(f"u32 {at} = {self.pick([0, 0, 2, 16])};"), Part(head, body, "}")]
        counted = [Part(f"u32 {at} = 0, {i} = 0;"), Part(f"while ({at} < {end - 1}) {{", body, "}")]
        counted[1].body += [Part(f"if (++{i} == {rounds})", [Part("break;")])]
        return counted

    def _without_ends(self, scope: Scope, depth: int) -> List[Part]:
        """Statements that don't leave a round, since more is to be done at its end."""
        had, self.features = self.features, self.features - {"early ends"}
        parts = self.body(scope, self.rng.randrange(1, 3), depth - 1)
        self.features = had
        return parts

    def _bit_loop(self, scope: Scope, depth: int) -> List[Part]:
        """A loop over the bits of a byte or of half a word."""
        if self._rounds(scope, 16) < 16:
            return self._if(scope, depth)
        name, bits = self.new_name("bits"), self.pick([8, 8, 16])
        step = self.pick([f"{name} &= {name} - 1;", f"{name} >>= 1;"])
        inner = scope.inner(bits, True)
        inner.variables.append(Variable(name, U32, 2**bits - 1, False))
        inner.in_loop = False
        body = self._without_ends(inner, 1)
        return [Part(f"u32 {name} = (u{bits}){self.number(scope, 1)};"), Part(f"while ({name}) {{", [*body, Part(step)], "}")]

    def _search(self, scope: Scope, depth: int) -> List[Part]:
        """A binary search in an array that may be in order."""
        arrays = [it for it in scope.arrays if it.length >= 4]
        if not arrays or not self.can(scope, 90):
            return self._if(scope, depth)
        array = self.pick(arrays)
        low, high, middle, key = (self.new_name(it) for it in ("low", "high", "middle", "key"))
        self.spend(scope, 15 * array.length.bit_length())
        body = [
            Part(f"u32 {middle} = ({low} + {high}) / 2;"),
            Part(f"if ({array.name}[{middle}] < {key})", [Part(f"{low} = {middle} + 1;")]),
            Part("else", [Part(f"{high} = {middle};")]),
        ]
        parts = [Part(f"{array.type.name} {key} = {self.number(scope, 1)};"), Part(f"u32 {low} = 0, {high} = {array.length};")]
        scope.variables.append(Variable(low, U32, array.length, False))
        return [*parts, Part(f"while ({low} < {high}) {{", body, "}")]

    def _string_loop(self, scope: Scope, depth: int) -> List[Part]:
        """A loop over a table of strings, to its null where it has one, or over the letters of one."""
        table = self.pick(scope.strings)
        rounds = table.count if self.rng.random() < 0.6 else 12
        if self._rounds(scope, rounds) < rounds:
            return self._if(scope, depth)
        inner, i = scope.inner(rounds, True), self.new_name("i")
        inner.variables.append(Variable(i, U32, rounds - 1 if rounds == table.count else 63, False))
        if rounds == table.count:
            ends = f"{table.name}[{i}]" if table.ends_with_null else f"{i} < {table.count}"
            inner.pointers.append(Pointer(f"((const u8 *){table.name}[{i}])", table.least + 1, False))
            head = f"for (int {i} = 0; {ends}; {i}++) {{"
            return [Part(head, self.body(inner, self.rng.randrange(1, 3), depth - 1), "}")]
        name = self.new_name("text")
        inner.pointers.append(Pointer(f"((const u8 *){name} + {i})", 1, False))
        head = f"for (u32 {i} = 0; {name}[{i}]; {i}++) {{"
        string = f"const char *{name} = {table.name}[{self.index(scope, table.count)}];"
        return [Part(string), Part(head, self.body(inner, 1, depth - 1), "}")]

    def _unknown_loop(self, scope: Scope, depth: int) -> List[Part]:
        """A loop whose rounds no constant bounds, though it ends."""
        name, rounds = self.new_name("w"), 40
        if self._rounds(scope, rounds) < 20:
            return self._if(scope, depth)
        inner = scope.inner(rounds, True)
        inner.in_loop = False
        inner.variables.append(Variable(name, U32, 2**32 - 1, False))
        start = self.pick([f"(u8){self.number(scope, 1)}", f"(u16){self.number(scope, 1)}"])
        ends, step = self.pick(
            [
                (f"{name} > {self.pick([1, 3, 10])}", f"{name} = {name} / 2;"),
                (f"{name} > 1", f"{name} = {name} / 10;"),
                (f"{name} % 7", f"{name}--;"),
                (f"{name} < 200", f"{name} += ({name} & 15) + 9;"),
            ]
        )
        body = self._without_ends(inner, 1)
        return [Part(f"u32 {name} = {start};"), Part(f"while ({ends}) {{", [*body, Part(step)], "}")]
